"""What both go-betweens hold their visitors to: `budget` is so many a second with so many at once, `pace` what one link
may send, `saying` what one member may say to others, `hearing` what it is told of what these say, `addresses` what one
address may have and do, `pieces` reads a little at a time, `descriptors` says how many files this process may open."""
