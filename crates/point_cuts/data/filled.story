# A file fills the log: the first command plans a point, and the next ones write it in slices, cut within each write. Behind each of
# these cuts the tail is run; of the cuts within its writes those are tried whose turn it is.
# How a story is written. A line that is empty or begins with `#` says nothing.
#
#   image BLOCKS INODES HALF        a new image of these sizes
#   disk AT DIGITS, nvram AT DIGITS    bytes of it, two hexadecimal digits each: where there are such lines no image is made, and these
#                                   stand over zeros
#   before COMMAND -> REPLY         what is run on it before anything is tried
#   command COMMAND -> REPLY        the story's commands; they run on what that left. Each is spelled as it is written again
#   tail COMMAND -> REPLY           commands that run on what a cut left, and are cut in their turn
#   probe COMMAND -> REPLY          a reading command, and its reply on the image before the first command
#   start                           lines about what is shown before the first command follow
#   again N                         of all second cuts, which come within each write of the tail behind each cut, each N-th is tried only
#   failing                         each device call fails in turn
#   quiet N                         those behind the first N commands make no device call
#   sweep disk A..B, sweep nvram A..B    each byte from A to B becomes 00 and ff in turn: a mount, the commands and a check come to an end
#
# Two spaces before them, lines about the command above:
#
#   COMMAND -> REPLY                a reading command now has another reply than behind the command before
#   + COMMAND -> REPLY              it has this reply where the tail's first command comes next; ++ where two come, +++ for three
#   cut A..B KEEP,KEEP C..D         these device writes are the command's, and the power is to be cut within each: once for each KEEP, which
#                                   says what of the sectors written since the last sync stays (`none`, `all`, or by digits: 1 stays, 0 doesn't,
#                                   2 can't be read then), and once for each number of bytes that stay of a write to the NVRAM
#   without N COMMAND -> REPLY      what command N is answered in a run without this one
#
# Behind a cut within a command the replies are those of the commands before, and a mount then shows what the reading commands show
# behind these, or behind one command more. Where a read fails one command answers `err EIO`, and all others as in a run without it;
# where a write or a sync fails it does, and then all answer `err FAILED`, and a mount shows the state with or without it.
# In texts {HH} is a byte, {HH*N} so many of it, and {A..B HH*N} the numbers from A to B, each in three digits with so many of the byte
# behind it.

image 256 32 131072
before open /f wc -> fd 0
before write 0 {61*131072} -> wrote 65536
before write 0 {62*114546} -> wrote 57273
probe list / -> names f
probe snap list -> snaps
probe lstat /f -> stat number 4 kind file mode 0644 links 1 size 122809
probe get /f 65534 4 -> data aaaabbbb
probe get /f 122807 9 -> data bbbb
probe lstat /z -> err ENOENT
probe list /z -> err ENOENT
probe in z list / -> err NOSNAP
probe in z get /f 65534 4 -> err NOSNAP
probe lstat /a -> err ENOENT
probe lstat /b -> err ENOENT
probe lstat /c -> err ENOENT
probe lstat /d -> err ENOENT
probe lstat /e -> err ENOENT
probe lstat /g -> err ENOENT
probe lstat /h -> err ENOENT
probe lstat /i -> err ENOENT
tail mkdir /z -> ok
tail sync -> ok
tail snap take z -> ok
again 24
start
  + list / -> names f z
  + lstat /z -> stat number 5 kind dir mode 0755 links 1 size 0
  + list /z -> names
  +++ snap list -> snaps z
  +++ in z list / -> names f z
  +++ in z get /f 65534 4 -> data aaaabbbb
command mkdir /a -> ok
  cut 1 none 0..1
  cut 1 none,all,10,2,021 0
  cut 1 none,all,10,2,021 1
  cut 2 none 0..9
  cut 2 none,all,10,2,021 0
  cut 2 none,all,10,2,021 9
  cut 3 none 0..1
  cut 3 none,all,10,2,021 0
  cut 3 none,all,10,2,021 1
  cut 4 none 0..19
  cut 4 none,all,10,2,021 0
  cut 4 none,all,10,2,021 19
  cut 5 none 0..1
  cut 5 none,all,10,2,021 0
  cut 5 none,all,10,2,021 1
  list / -> names a f
  lstat /a -> stat number 5 kind dir mode 0755 links 1 size 0
  + list / -> names a f z
  + lstat /z -> stat number 6 kind dir mode 0755 links 1 size 0
  + list /z -> names
  +++ snap list -> snaps z
  +++ in z list / -> names a f z
  +++ in z get /f 65534 4 -> data aaaabbbb
command mkdir /b -> ok
  cut 6..13 none,all,10,2,021 0
  cut 14 none 0..19
  cut 14 none,all,10,2,021 0
  cut 14 none,all,10,2,021 19
  cut 15 none 0..1
  cut 15 none,all,10,2,021 0
  cut 15 none,all,10,2,021 1
  list / -> names a b f
  lstat /b -> stat number 6 kind dir mode 0755 links 1 size 0
  + list / -> names a b f z
  + lstat /z -> stat number 7 kind dir mode 0755 links 1 size 0
  + list /z -> names
  +++ snap list -> snaps z
  +++ in z list / -> names a b f z
  +++ in z get /f 65534 4 -> data aaaabbbb
command mkdir /c -> ok
  cut 16..23 none,all,10,2,021 0
  cut 24 none 0..19
  cut 24 none,all,10,2,021 0
  cut 24 none,all,10,2,021 19
  cut 25 none 0..1
  cut 25 none,all,10,2,021 0
  cut 25 none,all,10,2,021 1
  list / -> names a b c f
  lstat /c -> stat number 7 kind dir mode 0755 links 1 size 0
  + list / -> names a b c f z
  + lstat /z -> stat number 8 kind dir mode 0755 links 1 size 0
  + list /z -> names
  +++ snap list -> snaps z
  +++ in z list / -> names a b c f z
  +++ in z get /f 65534 4 -> data aaaabbbb
command mkdir /d -> ok
  cut 26..33 none,all,10,2,021 0
  cut 34 none 0..19
  cut 34 none,all,10,2,021 0
  cut 34 none,all,10,2,021 19
  cut 35 none 0..1
  cut 35 none,all,10,2,021 0
  cut 35 none,all,10,2,021 1
  list / -> names a b c d f
  lstat /d -> stat number 8 kind dir mode 0755 links 1 size 0
  + list / -> names a b c d f z
  + lstat /z -> stat number 9 kind dir mode 0755 links 1 size 0
  + list /z -> names
  +++ snap list -> snaps z
  +++ in z list / -> names a b c d f z
  +++ in z get /f 65534 4 -> data aaaabbbb
command mkdir /e -> ok
  cut 36..43 none,all,10,2,021 0
  cut 44 none 0..19
  cut 44 none,all,10,2,021 0
  cut 44 none,all,10,2,021 19
  cut 45 none 0..1
  cut 45 none,all,10,2,021 0
  cut 45 none,all,10,2,021 1
  list / -> names a b c d e f
  lstat /e -> stat number 9 kind dir mode 0755 links 1 size 0
  + list / -> names a b c d e f z
  + lstat /z -> stat number 10 kind dir mode 0755 links 1 size 0
  + list /z -> names
  +++ snap list -> snaps z
  +++ in z list / -> names a b c d e f z
  +++ in z get /f 65534 4 -> data aaaabbbb
command mkdir /g -> ok
  cut 46..48 none,all,10,2,021 0
  cut 49 none 0..19
  cut 49 none,all,10,2,021 0
  cut 49 none,all,10,2,021 19
  cut 50 none 0..1
  cut 50 none,all,10,2,021 0
  cut 50 none,all,10,2,021 1
  list / -> names a b c d e f g
  lstat /g -> stat number 10 kind dir mode 0755 links 1 size 0
  + list / -> names a b c d e f g z
  + lstat /z -> stat number 11 kind dir mode 0755 links 1 size 0
  + list /z -> names
  +++ snap list -> snaps z
  +++ in z list / -> names a b c d e f g z
  +++ in z get /f 65534 4 -> data aaaabbbb
command mkdir /h -> ok
  cut 51 none 0..19
  cut 51 none,all,10,2,021 0
  cut 51 none,all,10,2,021 19
  cut 52 none 0..1
  cut 52 none,all,10,2,021 0
  cut 52 none,all,10,2,021 1
  list / -> names a b c d e f g h
  lstat /h -> stat number 11 kind dir mode 0755 links 1 size 0
  + list / -> names a b c d e f g h z
  + lstat /z -> stat number 12 kind dir mode 0755 links 1 size 0
  + list /z -> names
  +++ snap list -> snaps z
  +++ in z list / -> names a b c d e f g h z
  +++ in z get /f 65534 4 -> data aaaabbbb
command mkdir /i -> ok
  cut 53 none 0..19
  cut 53 none,all,10,2,021 0
  cut 53 none,all,10,2,021 19
  cut 54 none 0..1
  cut 54 none,all,10,2,021 0
  cut 54 none,all,10,2,021 1
  list / -> names a b c d e f g h i
  lstat /i -> stat number 12 kind dir mode 0755 links 1 size 0
  + list / -> names a b c d e f g h i z
  + lstat /z -> stat number 13 kind dir mode 0755 links 1 size 0
  + list /z -> names
  +++ snap list -> snaps z
  +++ in z list / -> names a b c d e f g h i z
  +++ in z get /f 65534 4 -> data aaaabbbb
