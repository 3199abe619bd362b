/* An echo server of one thread a connection, to which the round trips of `ficsd serve` are compared:
 * it answers each line with the same line. usage: echo PORT */
#include <arpa/inet.h>
#include <netinet/in.h>
#include <pthread.h>
#include <stdint.h>
#include <stdio.h>
#include <stdlib.h>
#include <string.h>
#include <sys/socket.h>
#include <unistd.h>

static void *serve(void *at)
{
    int link = (int)(intptr_t)at;
    char bytes[1024];
    ssize_t many;
    while ((many = read(link, bytes, sizeof bytes)) > 0) {
        for (ssize_t sent = 0; sent < many;) {
            ssize_t more = write(link, bytes + sent, many - sent);
            if (more <= 0) goto ended;
            sent += more;
        }
    }
ended:
    close(link);
    return NULL;
}

int main(int count, char **words)
{
    int door = socket(AF_INET, SOCK_STREAM, 0), on = 1;
    struct sockaddr_in at = {.sin_family = AF_INET};
    at.sin_addr.s_addr = htonl(INADDR_LOOPBACK);
    at.sin_port = htons(count > 1 ? atoi(words[1]) : 0);
    setsockopt(door, SOL_SOCKET, SO_REUSEADDR, &on, sizeof on);
    if (bind(door, (struct sockaddr *)&at, sizeof at) || listen(door, 512)) {
        perror("echo");
        return 1;
    }
    for (;;) {
        int link = accept(door, NULL, NULL);
        pthread_t thread;
        if (link < 0) continue;
        if (pthread_create(&thread, NULL, serve, (void *)(intptr_t)link)) close(link);
        else pthread_detach(thread);
    }
}
