# A file of 200 blocks, read whole twice behind a mount: the second reading makes no device call.
# How a story is written. A line that is empty or begins with `#` says nothing.
#
#   image BLOCKS INODES HALF        a new image of these sizes
#   disk AT DIGITS, nvram AT DIGITS    bytes of it, two hexadecimal digits each: where there are such lines no image is made, and these
#                                   stand over zeros
#   before COMMAND -> REPLY         what is run on it before anything is tried
#   command COMMAND -> REPLY        the story's commands; they run on what that left. Each is spelled as it is written again
#   tail COMMAND -> REPLY           commands that run on what a cut left, and are cut in their turn
#   probe COMMAND -> REPLY          a reading command, and its reply on the image before the first command
#   start                           lines about what is shown before the first command follow
#   again N                         of all second cuts, which come within each write of the tail behind each cut, each N-th is tried only
#   failing                         each device call fails in turn
#   quiet N                         those behind the first N commands make no device call
#   sweep disk A..B, sweep nvram A..B    each byte from A to B becomes 00 and ff in turn: a mount, the commands and a check come to an end
#
# Two spaces before them, lines about the command above:
#
#   COMMAND -> REPLY                a reading command now has another reply than behind the command before
#   + COMMAND -> REPLY              it has this reply where the tail's first command comes next; ++ where two come, +++ for three
#   cut A..B KEEP,KEEP C..D         these device writes are the command's, and the power is to be cut within each: once for each KEEP, which
#                                   says what of the sectors written since the last sync stays (`none`, `all`, or by digits: 1 stays, 0 doesn't,
#                                   2 can't be read then), and once for each number of bytes that stay of a write to the NVRAM
#   without N COMMAND -> REPLY      what command N is answered in a run without this one
#
# Behind a cut within a command the replies are those of the commands before, and a mount then shows what the reading commands show
# behind these, or behind one command more. Where a read fails one command answers `err EIO`, and all others as in a run without it;
# where a write or a sync fails it does, and then all answer `err FAILED`, and a mount shows the state with or without it.
# In texts {HH} is a byte, {HH*N} so many of it, and {A..B HH*N} the numbers from A to B, each in three digits with so many of the byte
# behind it.

image 1024 512 131072
before open /f wc -> fd 0
before write 0 {31*131072} -> wrote 65536
before write 0 {32*131072} -> wrote 65536
before write 0 {33*131072} -> wrote 65536
before write 0 {34*131072} -> wrote 65536
before write 0 {35*131072} -> wrote 65536
before write 0 {36*131072} -> wrote 65536
before write 0 {37*131072} -> wrote 65536
before write 0 {38*131072} -> wrote 65536
before write 0 {39*131072} -> wrote 65536
before write 0 {31*131072} -> wrote 65536
before write 0 {32*131072} -> wrote 65536
before write 0 {33*131072} -> wrote 65536
before write 0 {34*65536} -> wrote 32768
before sync -> ok
quiet 13
command get /f 0 65536 -> data {31*131072}
command get /f 65536 65536 -> data {32*131072}
command get /f 131072 65536 -> data {33*131072}
command get /f 196608 65536 -> data {34*131072}
command get /f 262144 65536 -> data {35*131072}
command get /f 327680 65536 -> data {36*131072}
command get /f 393216 65536 -> data {37*131072}
command get /f 458752 65536 -> data {38*131072}
command get /f 524288 65536 -> data {39*131072}
command get /f 589824 65536 -> data {31*131072}
command get /f 655360 65536 -> data {32*131072}
command get /f 720896 65536 -> data {33*131072}
command get /f 786432 32768 -> data {34*65536}
command get /f 0 65536 -> data {31*131072}
command get /f 65536 65536 -> data {32*131072}
command get /f 131072 65536 -> data {33*131072}
command get /f 196608 65536 -> data {34*131072}
command get /f 262144 65536 -> data {35*131072}
command get /f 327680 65536 -> data {36*131072}
command get /f 393216 65536 -> data {37*131072}
command get /f 458752 65536 -> data {38*131072}
command get /f 524288 65536 -> data {39*131072}
command get /f 589824 65536 -> data {31*131072}
command get /f 655360 65536 -> data {32*131072}
command get /f 720896 65536 -> data {33*131072}
command get /f 786432 32768 -> data {34*65536}
