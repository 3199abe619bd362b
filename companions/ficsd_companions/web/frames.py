"""The frames of a tab's WebSocket, as far as they have to be masked (RFC 6455, 5.1 and 5.2)."""

MASKED, SIZE = 0x80, 0x7F  # of a frame's second byte
MASK = 4  # bytes
LONGER = {126: 2, 127: 8}  # of sizes that stand for longer ones how many bytes have them


class Frames:
    """Follows the frames through pieces, however they are cut."""

    def __init__(self) -> None:
        self.head = bytearray()  # of the frame that has begun
        self.left = 0  # bytes of a frame whose head is known

    def are_masked(self, piece: bytes) -> bool:
        """Whether each frame whose second byte is in a piece has a mask."""
        at = 0
        while at < len(piece):
            if self.left:
                step = min(self.left, len(piece) - at)
                self.left -= step
                at += step
                continue
            self.head.append(piece[at])
            at += 1
            if len(self.head) >= 2 and not self.take_head():
                return False
        return True

    def take_head(self) -> bool:
        """Looks at a head that has its second byte: whether that says that there is a mask."""
        if not self.head[1] & MASKED:
            return False
        size = self.head[1] & SIZE
        longer = LONGER.get(size, 0)
        if len(self.head) == 2 + longer:
            self.left = MASK + (int.from_bytes(self.head[2:], "big") if longer else size)
            self.head.clear()
        return True
