# Bytes of a small image's roots, inodes, block map and log become 00 and ff in turn.
# How a story is written. A line that is empty or begins with `#` says nothing.
#
#   image BLOCKS INODES HALF        a new image of these sizes
#   disk AT DIGITS, nvram AT DIGITS    bytes of it, two hexadecimal digits each: where there are such lines no image is made, and these
#                                   stand over zeros
#   before COMMAND -> REPLY         what is run on it before anything is tried
#   command COMMAND -> REPLY        the story's commands; they run on what that left. Each is spelled as it is written again
#   tail COMMAND -> REPLY           commands that run on what a cut left, and are cut in their turn
#   probe COMMAND -> REPLY          a reading command, and its reply on the image before the first command
#   start                           lines about what is shown before the first command follow
#   again N                         of all second cuts, which come within each write of the tail behind each cut, each N-th is tried only
#   failing                         each device call fails in turn
#   quiet N                         those behind the first N commands make no device call
#   sweep disk A..B, sweep nvram A..B    each byte from A to B becomes 00 and ff in turn: a mount, the commands and a check come to an end
#
# Two spaces before them, lines about the command above:
#
#   COMMAND -> REPLY                a reading command now has another reply than behind the command before
#   + COMMAND -> REPLY              it has this reply where the tail's first command comes next; ++ where two come, +++ for three
#   cut A..B KEEP,KEEP C..D         these device writes are the command's, and the power is to be cut within each: once for each KEEP, which
#                                   says what of the sectors written since the last sync stays (`none`, `all`, or by digits: 1 stays, 0 doesn't,
#                                   2 can't be read then), and once for each number of bytes that stay of a write to the NVRAM
#   without N COMMAND -> REPLY      what command N is answered in a run without this one
#
# Behind a cut within a command the replies are those of the commands before, and a mount then shows what the reading commands show
# behind these, or behind one command more. Where a read fails one command answers `err EIO`, and all others as in a run without it;
# where a write or a sync fails it does, and then all answer `err FAILED`, and a mount shows the state with or without it.
# In texts {HH} is a byte, {HH*N} so many of it, and {A..B HH*N} the numbers from A to B, each in three digits with so many of the byte
# behind it.

image 64 32 131072
before mkdir /a -> ok
sweep disk 0..4095
sweep disk 8192..12287
sweep disk 12288..16383
sweep nvram 0..63
sweep nvram 131072..131135
command mkdir /a -> err EEXIST
command mkdir /a/b 0700 -> ok
command open /a/f rwc -> fd 0
command write 0 616263 -> wrote 3
command symlink a/f /l -> ok
command get /l 0 9 -> data 616263
command link /a/f /g -> ok
command sync -> ok
command snap take s1 -> ok
command pwrite 0 1 ff -> wrote 1
command in s1 get /g 0 9 -> data 616263
command get /g 0 9 -> data 61ff63
command rename /a /c -> ok
command stat /l -> err ENOENT
command rename /c/b /b -> ok
command unlink /g -> ok
command unlink /c/f -> ok
command fstat 0 -> stat number 6 kind file mode 0644 links 0 size 3
command sync -> ok
command pwrite 0 8192 01 -> wrote 1
command open /h wcx 0600 -> fd 1
command close 0 -> ok
command mkdir /b/e -> ok
command truncate /h 200 -> ok
command chmod /h 0640 -> ok
command snap take s2 -> ok
command rmdir /c -> ok
command in s2 list / -> names b c h l
command list / -> names b h l
command in s1 stat /a/f -> stat number 6 kind file mode 0644 links 2 size 3
command snap delete s1 -> ok
command snap list -> snaps s2
command rename /l /b/e -> err EISDIR
command rename /b /b/e/x -> err EINVAL
command open /h rw -> fd 0
command read 0 3 -> data 000000
command ftruncate 0 2 -> ok
command lseek 0 end 1 -> at 3
command write 0 07 -> wrote 1
command get /h 0 9 -> data 00000007
command close 0 -> ok
command close 1 -> ok
command snap restore s2 -> ok
