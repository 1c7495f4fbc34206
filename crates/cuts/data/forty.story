# Forty commands, and three that go back to a snapshot: cut within each write, with a second cut behind each; and each device call
# fails in turn.
# How a story is written. A line that is empty or begins with `#` says nothing.
#
#   image BLOCKS INODES HALF        a new image of these sizes
#   disk AT DIGITS, nvram AT DIGITS    bytes of it, two hexadecimal digits each: where there are such lines no image is made, and these
#                                   stand over zeros
#   before COMMAND -> REPLY         what is run on it before anything is tried
#   command COMMAND -> REPLY        the story's commands; they run on what that left. Each is spelled as it is written again
#   tail COMMAND -> REPLY           commands that run on what a cut left, and are cut in their turn
#   probe COMMAND -> REPLY          a reading command, and its reply on the image before the first command
#   start                           lines about what is shown before the first command follow
#   again N                         of all second cuts, which come within each write of the tail behind each cut, each N-th is tried only
#   together LINES WRITES           the commands run again with so many lines that wait at once, make so many device writes, and are cut within
#                                   each: what is answered then, and what stands behind the cut, are whole batches
#   failing                         each device call fails in turn
#   quiet N                         those behind the first N commands make no device call
#   sweep disk A..B, sweep nvram A..B    each byte from A to B becomes 00 and ff in turn: a mount, the commands and a check come to an end
#
# Two spaces before them, lines about the command above:
#
#   COMMAND -> REPLY                a reading command now has another reply than behind the command before
#   + COMMAND -> REPLY              it has this reply where the tail's first command comes next; ++ where two come, +++ for three
#   cut A..B KEEP,KEEP C..D         these device writes are the command's, and the power is to be cut within each: once for each KEEP, which
#                                   says what of the sectors written since the last sync stays (`none`, `all`, or by digits: 1 stays, 0 doesn't,
#                                   2 can't be read then), and once for each number of bytes that stay of a write to the NVRAM
#   without N COMMAND -> REPLY      what command N is answered in a run without this one
#
# Behind a cut within a command the replies are those of the commands before, and a mount then shows what the reading commands show
# behind these, or behind one command more. Where a read fails one command answers `err EIO`, and all others as in a run without it;
# where a write or a sync fails it does, and then all answer `err FAILED`, and a mount shows the state with or without it.
# In texts {HH} is a byte, {HH*N} so many of it, and {A..B HH*N} the numbers from A to B, each in three digits with so many of the byte
# behind it.

# Of four at once each of these makes its commits: the first four (5 writes); the fifth, which has no room, by itself behind a point (10),
# the seventh (2) and `sync` (4); `snap take` (4) and the tenth (5); the next four (2); the seventeenth (2), `sync` (4) and the twentieth
# (5); four (2); one (2), `snap take` (9) and one (5); `snap delete` (4); nothing; two (5); and `snap restore` (6).
together 4 76
image 128 32 131072
probe lstat / -> stat number 3 kind dir mode 0755 links 1 size 0
probe list / -> names
probe readlink / -> err EINVAL
probe get / 0 300 -> err EISDIR
probe lstat /a -> err ENOENT
probe list /a -> err ENOENT
probe readlink /a -> err ENOENT
probe get /a 0 300 -> err ENOENT
probe lstat /a/b -> err ENOENT
probe list /a/b -> err ENOENT
probe readlink /a/b -> err ENOENT
probe get /a/b 0 300 -> err ENOENT
probe lstat /a/f -> err ENOENT
probe list /a/f -> err ENOENT
probe readlink /a/f -> err ENOENT
probe get /a/f 0 300 -> err ENOENT
probe lstat /l -> err ENOENT
probe list /l -> err ENOENT
probe readlink /l -> err ENOENT
probe get /l 0 300 -> err ENOENT
probe lstat /g -> err ENOENT
probe list /g -> err ENOENT
probe readlink /g -> err ENOENT
probe get /g 0 300 -> err ENOENT
probe lstat /c -> err ENOENT
probe list /c -> err ENOENT
probe readlink /c -> err ENOENT
probe get /c 0 300 -> err ENOENT
probe lstat /c/b -> err ENOENT
probe list /c/b -> err ENOENT
probe readlink /c/b -> err ENOENT
probe get /c/b 0 300 -> err ENOENT
probe lstat /c/f -> err ENOENT
probe list /c/f -> err ENOENT
probe readlink /c/f -> err ENOENT
probe get /c/f 0 300 -> err ENOENT
probe lstat /b -> err ENOENT
probe list /b -> err ENOENT
probe readlink /b -> err ENOENT
probe get /b 0 300 -> err ENOENT
probe lstat /b/e -> err ENOENT
probe list /b/e -> err ENOENT
probe readlink /b/e -> err ENOENT
probe get /b/e 0 300 -> err ENOENT
probe lstat /h -> err ENOENT
probe list /h -> err ENOENT
probe readlink /h -> err ENOENT
probe get /h 0 300 -> err ENOENT
probe lstat /z -> err ENOENT
probe list /z -> err ENOENT
probe readlink /z -> err ENOENT
probe get /z 0 300 -> err ENOENT
probe snap list -> snaps
probe in s1 lstat / -> err NOSNAP
probe in s1 list / -> err NOSNAP
probe in s1 readlink / -> err NOSNAP
probe in s1 get / 0 300 -> err NOSNAP
probe in s1 lstat /a -> err NOSNAP
probe in s1 list /a -> err NOSNAP
probe in s1 readlink /a -> err NOSNAP
probe in s1 get /a 0 300 -> err NOSNAP
probe in s1 lstat /a/b -> err NOSNAP
probe in s1 list /a/b -> err NOSNAP
probe in s1 readlink /a/b -> err NOSNAP
probe in s1 get /a/b 0 300 -> err NOSNAP
probe in s1 lstat /a/f -> err NOSNAP
probe in s1 list /a/f -> err NOSNAP
probe in s1 readlink /a/f -> err NOSNAP
probe in s1 get /a/f 0 300 -> err NOSNAP
probe in s1 lstat /l -> err NOSNAP
probe in s1 list /l -> err NOSNAP
probe in s1 readlink /l -> err NOSNAP
probe in s1 get /l 0 300 -> err NOSNAP
probe in s1 lstat /g -> err NOSNAP
probe in s1 list /g -> err NOSNAP
probe in s1 readlink /g -> err NOSNAP
probe in s1 get /g 0 300 -> err NOSNAP
probe in s1 lstat /c -> err NOSNAP
probe in s1 list /c -> err NOSNAP
probe in s1 readlink /c -> err NOSNAP
probe in s1 get /c 0 300 -> err NOSNAP
probe in s1 lstat /c/b -> err NOSNAP
probe in s1 list /c/b -> err NOSNAP
probe in s1 readlink /c/b -> err NOSNAP
probe in s1 get /c/b 0 300 -> err NOSNAP
probe in s1 lstat /c/f -> err NOSNAP
probe in s1 list /c/f -> err NOSNAP
probe in s1 readlink /c/f -> err NOSNAP
probe in s1 get /c/f 0 300 -> err NOSNAP
probe in s1 lstat /b -> err NOSNAP
probe in s1 list /b -> err NOSNAP
probe in s1 readlink /b -> err NOSNAP
probe in s1 get /b 0 300 -> err NOSNAP
probe in s1 lstat /b/e -> err NOSNAP
probe in s1 list /b/e -> err NOSNAP
probe in s1 readlink /b/e -> err NOSNAP
probe in s1 get /b/e 0 300 -> err NOSNAP
probe in s1 lstat /h -> err NOSNAP
probe in s1 list /h -> err NOSNAP
probe in s1 readlink /h -> err NOSNAP
probe in s1 get /h 0 300 -> err NOSNAP
probe in s1 lstat /z -> err NOSNAP
probe in s1 list /z -> err NOSNAP
probe in s1 readlink /z -> err NOSNAP
probe in s1 get /z 0 300 -> err NOSNAP
probe in s2 lstat / -> err NOSNAP
probe in s2 list / -> err NOSNAP
probe in s2 readlink / -> err NOSNAP
probe in s2 get / 0 300 -> err NOSNAP
probe in s2 lstat /a -> err NOSNAP
probe in s2 list /a -> err NOSNAP
probe in s2 readlink /a -> err NOSNAP
probe in s2 get /a 0 300 -> err NOSNAP
probe in s2 lstat /a/b -> err NOSNAP
probe in s2 list /a/b -> err NOSNAP
probe in s2 readlink /a/b -> err NOSNAP
probe in s2 get /a/b 0 300 -> err NOSNAP
probe in s2 lstat /a/f -> err NOSNAP
probe in s2 list /a/f -> err NOSNAP
probe in s2 readlink /a/f -> err NOSNAP
probe in s2 get /a/f 0 300 -> err NOSNAP
probe in s2 lstat /l -> err NOSNAP
probe in s2 list /l -> err NOSNAP
probe in s2 readlink /l -> err NOSNAP
probe in s2 get /l 0 300 -> err NOSNAP
probe in s2 lstat /g -> err NOSNAP
probe in s2 list /g -> err NOSNAP
probe in s2 readlink /g -> err NOSNAP
probe in s2 get /g 0 300 -> err NOSNAP
probe in s2 lstat /c -> err NOSNAP
probe in s2 list /c -> err NOSNAP
probe in s2 readlink /c -> err NOSNAP
probe in s2 get /c 0 300 -> err NOSNAP
probe in s2 lstat /c/b -> err NOSNAP
probe in s2 list /c/b -> err NOSNAP
probe in s2 readlink /c/b -> err NOSNAP
probe in s2 get /c/b 0 300 -> err NOSNAP
probe in s2 lstat /c/f -> err NOSNAP
probe in s2 list /c/f -> err NOSNAP
probe in s2 readlink /c/f -> err NOSNAP
probe in s2 get /c/f 0 300 -> err NOSNAP
probe in s2 lstat /b -> err NOSNAP
probe in s2 list /b -> err NOSNAP
probe in s2 readlink /b -> err NOSNAP
probe in s2 get /b 0 300 -> err NOSNAP
probe in s2 lstat /b/e -> err NOSNAP
probe in s2 list /b/e -> err NOSNAP
probe in s2 readlink /b/e -> err NOSNAP
probe in s2 get /b/e 0 300 -> err NOSNAP
probe in s2 lstat /h -> err NOSNAP
probe in s2 list /h -> err NOSNAP
probe in s2 readlink /h -> err NOSNAP
probe in s2 get /h 0 300 -> err NOSNAP
probe in s2 lstat /z -> err NOSNAP
probe in s2 list /z -> err NOSNAP
probe in s2 readlink /z -> err NOSNAP
probe in s2 get /z 0 300 -> err NOSNAP
probe in z list / -> err NOSNAP
probe in z list /a -> err NOSNAP
probe in z list /b -> err NOSNAP
probe in z list /c -> err NOSNAP
probe in z readlink /l -> err NOSNAP
probe in z get /g 0 300 -> err NOSNAP
probe in z get /h 0 300 -> err NOSNAP
probe in z lstat /z -> err NOSNAP
tail mkdir /z -> ok
tail sync -> ok
tail snap take z -> ok
again 1
failing

start
  + list / -> names z
  + lstat /z -> stat number 4 kind dir mode 0755 links 1 size 0
  + list /z -> names
  + readlink /z -> err EINVAL
  + get /z 0 300 -> err EISDIR
  +++ snap list -> snaps z
  +++ in z list / -> names z
  +++ in z list /a -> err ENOENT
  +++ in z list /b -> err ENOENT
  +++ in z list /c -> err ENOENT
  +++ in z readlink /l -> err ENOENT
  +++ in z get /g 0 300 -> err ENOENT
  +++ in z get /h 0 300 -> err ENOENT
  +++ in z lstat /z -> stat number 4 kind dir mode 0755 links 1 size 0
command mkdir /a -> ok
  cut 1 none 0..1
  cut 2 none 0..9
  cut 3 none 0..1
  cut 4 none 0..19
  cut 5 none 0..1
  list / -> names a
  lstat /a -> stat number 4 kind dir mode 0755 links 1 size 0
  list /a -> names
  readlink /a -> err EINVAL
  get /a 0 300 -> err EISDIR
  + list / -> names a z
  + lstat /z -> stat number 5 kind dir mode 0755 links 1 size 0
  + list /z -> names
  + readlink /z -> err EINVAL
  + get /z 0 300 -> err EISDIR
  +++ snap list -> snaps z
  +++ in z list / -> names a z
  +++ in z list /a -> names
  +++ in z list /b -> err ENOENT
  +++ in z list /c -> err ENOENT
  +++ in z readlink /l -> err ENOENT
  +++ in z get /g 0 300 -> err ENOENT
  +++ in z get /h 0 300 -> err ENOENT
  +++ in z lstat /z -> stat number 5 kind dir mode 0755 links 1 size 0
  without 2 mkdir /a/b 0700 -> err ENOENT
  without 3 open /a/f rwc -> err ENOENT
  without 4 write 0 616263 -> err EBADF
  without 6 get /l 0 9 -> err ENOENT
  without 7 link /a/f /g -> err ENOENT
  without 10 pwrite 0 1 ff -> err EBADF
  without 11 in s1 get /g 0 9 -> err ENOENT
  without 12 get /g 0 9 -> err ENOENT
  without 13 rename /a /c -> err ENOENT
  without 15 rename /c/b /b -> err ENOENT
  without 16 unlink /g -> err ENOENT
  without 17 unlink /c/f -> err ENOENT
  without 18 fstat 0 -> err EBADF
  without 20 pwrite 0 8192 01 -> err EBADF
  without 21 open /h wcx 0600 -> fd 0
  without 23 mkdir /b/e -> err ENOENT
  without 27 rmdir /c -> err ENOENT
  without 28 in s2 list / -> names h l
  without 29 list / -> names h l
  without 30 in s1 stat /a/f -> err ENOENT
  without 33 rename /l /b/e -> err ENOENT
  without 34 rename /b /b/e/x -> err ENOENT
  without 42 close 1 -> err EBADF
command mkdir /a/b 0700 -> ok
  cut 6 none 0..19
  cut 7 none 0..1
  list /a -> names b
  lstat /a/b -> stat number 5 kind dir mode 0700 links 1 size 0
  list /a/b -> names
  readlink /a/b -> err EINVAL
  get /a/b 0 300 -> err EISDIR
  + list / -> names a z
  + lstat /z -> stat number 6 kind dir mode 0755 links 1 size 0
  + list /z -> names
  + readlink /z -> err EINVAL
  + get /z 0 300 -> err EISDIR
  +++ snap list -> snaps z
  +++ in z list / -> names a z
  +++ in z list /a -> names b
  +++ in z list /b -> err ENOENT
  +++ in z list /c -> err ENOENT
  +++ in z readlink /l -> err ENOENT
  +++ in z get /g 0 300 -> err ENOENT
  +++ in z get /h 0 300 -> err ENOENT
  +++ in z lstat /z -> stat number 6 kind dir mode 0755 links 1 size 0
  without 15 rename /c/b /b -> err ENOENT
  without 18 fstat 0 -> stat number 5 kind file mode 0644 links 0 size 3
  without 23 mkdir /b/e -> err ENOENT
  without 28 in s2 list / -> names c h l
  without 29 list / -> names h l
  without 30 in s1 stat /a/f -> stat number 5 kind file mode 0644 links 2 size 3
  without 33 rename /l /b/e -> err ENOENT
  without 34 rename /b /b/e/x -> err ENOENT
command open /a/f rwc -> fd 0
  cut 8 none 0..19
  cut 9 none 0..1
  list /a -> names b f
  lstat /a/f -> stat number 6 kind file mode 0644 links 1 size 0
  list /a/f -> err ENOTDIR
  readlink /a/f -> err EINVAL
  get /a/f 0 300 -> data -
  + list / -> names a z
  + lstat /z -> stat number 7 kind dir mode 0755 links 1 size 0
  + list /z -> names
  + readlink /z -> err EINVAL
  + get /z 0 300 -> err EISDIR
  +++ snap list -> snaps z
  +++ in z list / -> names a z
  +++ in z list /a -> names b f
  +++ in z list /b -> err ENOENT
  +++ in z list /c -> err ENOENT
  +++ in z readlink /l -> err ENOENT
  +++ in z get /g 0 300 -> err ENOENT
  +++ in z get /h 0 300 -> err ENOENT
  +++ in z lstat /z -> stat number 7 kind dir mode 0755 links 1 size 0
  without 4 write 0 616263 -> err EBADF
  without 6 get /l 0 9 -> err ENOENT
  without 7 link /a/f /g -> err ENOENT
  without 10 pwrite 0 1 ff -> err EBADF
  without 11 in s1 get /g 0 9 -> err ENOENT
  without 12 get /g 0 9 -> err ENOENT
  without 16 unlink /g -> err ENOENT
  without 17 unlink /c/f -> err ENOENT
  without 18 fstat 0 -> err EBADF
  without 20 pwrite 0 8192 01 -> err EBADF
  without 21 open /h wcx 0600 -> fd 0
  without 30 in s1 stat /a/f -> err ENOENT
  without 42 close 1 -> err EBADF
command write 0 616263 -> wrote 3
  cut 10 none 0..25
  cut 11 none 0..1
  lstat /a/f -> stat number 6 kind file mode 0644 links 1 size 3
  get /a/f 0 300 -> data 616263
  + list / -> names a z
  + lstat /z -> stat number 7 kind dir mode 0755 links 1 size 0
  + list /z -> names
  + readlink /z -> err EINVAL
  + get /z 0 300 -> err EISDIR
  +++ snap list -> snaps z
  +++ in z list / -> names a z
  +++ in z list /a -> names b f
  +++ in z list /b -> err ENOENT
  +++ in z list /c -> err ENOENT
  +++ in z readlink /l -> err ENOENT
  +++ in z get /g 0 300 -> err ENOENT
  +++ in z get /h 0 300 -> err ENOENT
  +++ in z lstat /z -> stat number 7 kind dir mode 0755 links 1 size 0
  without 6 get /l 0 9 -> data -
  without 11 in s1 get /g 0 9 -> data -
  without 12 get /g 0 9 -> data 00ff
  without 18 fstat 0 -> stat number 6 kind file mode 0644 links 0 size 2
  without 30 in s1 stat /a/f -> stat number 6 kind file mode 0644 links 2 size 0
command symlink a/f /l -> ok
  cut 12..16 none,all,10,2,021 0
  cut 17 none 0..1
  cut 18 none 0..9
  cut 19 none 0..1
  cut 20 none 0..24
  cut 21 none 0..1
  list / -> names a l
  lstat /l -> stat number 7 kind link mode 0777 links 1 size 3
  list /l -> err ENOTDIR
  readlink /l -> text a/f
  get /l 0 300 -> data 616263
  + list / -> names a l z
  + lstat /z -> stat number 8 kind dir mode 0755 links 1 size 0
  + list /z -> names
  + readlink /z -> err EINVAL
  + get /z 0 300 -> err EISDIR
  +++ snap list -> snaps z
  +++ in z list / -> names a l z
  +++ in z list /a -> names b f
  +++ in z list /b -> err ENOENT
  +++ in z list /c -> err ENOENT
  +++ in z readlink /l -> text a/f
  +++ in z get /g 0 300 -> err ENOENT
  +++ in z get /h 0 300 -> err ENOENT
  +++ in z lstat /z -> stat number 8 kind dir mode 0755 links 1 size 0
  without 6 get /l 0 9 -> err ENOENT
  without 28 in s2 list / -> names b c h
  without 29 list / -> names b h
  without 33 rename /l /b/e -> err ENOENT
command get /l 0 9 -> data 616263
  + list / -> names a l z
  + lstat /z -> stat number 8 kind dir mode 0755 links 1 size 0
  + list /z -> names
  + readlink /z -> err EINVAL
  + get /z 0 300 -> err EISDIR
  +++ snap list -> snaps z
  +++ in z list / -> names a l z
  +++ in z list /a -> names b f
  +++ in z list /b -> err ENOENT
  +++ in z list /c -> err ENOENT
  +++ in z readlink /l -> text a/f
  +++ in z get /g 0 300 -> err ENOENT
  +++ in z get /h 0 300 -> err ENOENT
  +++ in z lstat /z -> stat number 8 kind dir mode 0755 links 1 size 0
command link /a/f /g -> ok
  cut 22 none 0..16
  cut 23 none 0..1
  list / -> names a g l
  lstat /a/f -> stat number 6 kind file mode 0644 links 2 size 3
  lstat /g -> stat number 6 kind file mode 0644 links 2 size 3
  list /g -> err ENOTDIR
  readlink /g -> err EINVAL
  get /g 0 300 -> data 616263
  + list / -> names a g l z
  + lstat /z -> stat number 8 kind dir mode 0755 links 1 size 0
  + list /z -> names
  + readlink /z -> err EINVAL
  + get /z 0 300 -> err EISDIR
  +++ snap list -> snaps z
  +++ in z list / -> names a g l z
  +++ in z list /a -> names b f
  +++ in z list /b -> err ENOENT
  +++ in z list /c -> err ENOENT
  +++ in z readlink /l -> text a/f
  +++ in z get /g 0 300 -> data 616263
  +++ in z get /h 0 300 -> err ENOENT
  +++ in z lstat /z -> stat number 8 kind dir mode 0755 links 1 size 0
  without 11 in s1 get /g 0 9 -> err ENOENT
  without 12 get /g 0 9 -> err ENOENT
  without 16 unlink /g -> err ENOENT
  without 30 in s1 stat /a/f -> stat number 6 kind file mode 0644 links 1 size 3
command sync -> ok
  cut 24..27 none,all,10,2,021 0
  + list / -> names a g l z
  + lstat /z -> stat number 8 kind dir mode 0755 links 1 size 0
  + list /z -> names
  + readlink /z -> err EINVAL
  + get /z 0 300 -> err EISDIR
  +++ snap list -> snaps z
  +++ in z list / -> names a g l z
  +++ in z list /a -> names b f
  +++ in z list /b -> err ENOENT
  +++ in z list /c -> err ENOENT
  +++ in z readlink /l -> text a/f
  +++ in z get /g 0 300 -> data 616263
  +++ in z get /h 0 300 -> err ENOENT
  +++ in z lstat /z -> stat number 8 kind dir mode 0755 links 1 size 0
command snap take s1 -> ok
  cut 28..31 none,all,10,2,021 0
  snap list -> snaps s1
  in s1 lstat / -> stat number 3 kind dir mode 0755 links 1 size 0
  in s1 list / -> names a g l
  in s1 readlink / -> err EINVAL
  in s1 get / 0 300 -> err EISDIR
  in s1 lstat /a -> stat number 4 kind dir mode 0755 links 1 size 0
  in s1 list /a -> names b f
  in s1 readlink /a -> err EINVAL
  in s1 get /a 0 300 -> err EISDIR
  in s1 lstat /a/b -> stat number 5 kind dir mode 0700 links 1 size 0
  in s1 list /a/b -> names
  in s1 readlink /a/b -> err EINVAL
  in s1 get /a/b 0 300 -> err EISDIR
  in s1 lstat /a/f -> stat number 6 kind file mode 0644 links 2 size 3
  in s1 list /a/f -> err ENOTDIR
  in s1 readlink /a/f -> err EINVAL
  in s1 get /a/f 0 300 -> data 616263
  in s1 lstat /l -> stat number 7 kind link mode 0777 links 1 size 3
  in s1 list /l -> err ENOTDIR
  in s1 readlink /l -> text a/f
  in s1 get /l 0 300 -> data 616263
  in s1 lstat /g -> stat number 6 kind file mode 0644 links 2 size 3
  in s1 list /g -> err ENOTDIR
  in s1 readlink /g -> err EINVAL
  in s1 get /g 0 300 -> data 616263
  in s1 lstat /c -> err ENOENT
  in s1 list /c -> err ENOENT
  in s1 readlink /c -> err ENOENT
  in s1 get /c 0 300 -> err ENOENT
  in s1 lstat /c/b -> err ENOENT
  in s1 list /c/b -> err ENOENT
  in s1 readlink /c/b -> err ENOENT
  in s1 get /c/b 0 300 -> err ENOENT
  in s1 lstat /c/f -> err ENOENT
  in s1 list /c/f -> err ENOENT
  in s1 readlink /c/f -> err ENOENT
  in s1 get /c/f 0 300 -> err ENOENT
  in s1 lstat /b -> err ENOENT
  in s1 list /b -> err ENOENT
  in s1 readlink /b -> err ENOENT
  in s1 get /b 0 300 -> err ENOENT
  in s1 lstat /b/e -> err ENOENT
  in s1 list /b/e -> err ENOENT
  in s1 readlink /b/e -> err ENOENT
  in s1 get /b/e 0 300 -> err ENOENT
  in s1 lstat /h -> err ENOENT
  in s1 list /h -> err ENOENT
  in s1 readlink /h -> err ENOENT
  in s1 get /h 0 300 -> err ENOENT
  in s1 lstat /z -> err ENOENT
  in s1 list /z -> err ENOENT
  in s1 readlink /z -> err ENOENT
  in s1 get /z 0 300 -> err ENOENT
  + list / -> names a g l z
  + lstat /z -> stat number 8 kind dir mode 0755 links 1 size 0
  + list /z -> names
  + readlink /z -> err EINVAL
  + get /z 0 300 -> err EISDIR
  +++ snap list -> snaps s1 z
  +++ in z list / -> names a g l z
  +++ in z list /a -> names b f
  +++ in z list /b -> err ENOENT
  +++ in z list /c -> err ENOENT
  +++ in z readlink /l -> text a/f
  +++ in z get /g 0 300 -> data 616263
  +++ in z get /h 0 300 -> err ENOENT
  +++ in z lstat /z -> stat number 8 kind dir mode 0755 links 1 size 0
  without 11 in s1 get /g 0 9 -> err NOSNAP
  without 30 in s1 stat /a/f -> err NOSNAP
  without 31 snap delete s1 -> err NOSNAP
command pwrite 0 1 ff -> wrote 1
  cut 32 none 0..1
  cut 33 none 0..9
  cut 34 none 0..1
  cut 35 none 0..23
  cut 36 none 0..1
  get /a/f 0 300 -> data 61ff63
  get /l 0 300 -> data 61ff63
  get /g 0 300 -> data 61ff63
  + list / -> names a g l z
  + lstat /z -> stat number 8 kind dir mode 0755 links 1 size 0
  + list /z -> names
  + readlink /z -> err EINVAL
  + get /z 0 300 -> err EISDIR
  +++ snap list -> snaps s1 z
  +++ in z list / -> names a g l z
  +++ in z list /a -> names b f
  +++ in z list /b -> err ENOENT
  +++ in z list /c -> err ENOENT
  +++ in z readlink /l -> text a/f
  +++ in z get /g 0 300 -> data 61ff63
  +++ in z get /h 0 300 -> err ENOENT
  +++ in z lstat /z -> stat number 8 kind dir mode 0755 links 1 size 0
  without 12 get /g 0 9 -> data 616263
command in s1 get /g 0 9 -> data 616263
  + list / -> names a g l z
  + lstat /z -> stat number 8 kind dir mode 0755 links 1 size 0
  + list /z -> names
  + readlink /z -> err EINVAL
  + get /z 0 300 -> err EISDIR
  +++ snap list -> snaps s1 z
  +++ in z list / -> names a g l z
  +++ in z list /a -> names b f
  +++ in z list /b -> err ENOENT
  +++ in z list /c -> err ENOENT
  +++ in z readlink /l -> text a/f
  +++ in z get /g 0 300 -> data 61ff63
  +++ in z get /h 0 300 -> err ENOENT
  +++ in z lstat /z -> stat number 8 kind dir mode 0755 links 1 size 0
command get /g 0 9 -> data 61ff63
  + list / -> names a g l z
  + lstat /z -> stat number 8 kind dir mode 0755 links 1 size 0
  + list /z -> names
  + readlink /z -> err EINVAL
  + get /z 0 300 -> err EISDIR
  +++ snap list -> snaps s1 z
  +++ in z list / -> names a g l z
  +++ in z list /a -> names b f
  +++ in z list /b -> err ENOENT
  +++ in z list /c -> err ENOENT
  +++ in z readlink /l -> text a/f
  +++ in z get /g 0 300 -> data 61ff63
  +++ in z get /h 0 300 -> err ENOENT
  +++ in z lstat /z -> stat number 8 kind dir mode 0755 links 1 size 0
command rename /a /c -> ok
  cut 37 none 0..18
  cut 38 none 0..1
  list / -> names c g l
  lstat /a -> err ENOENT
  list /a -> err ENOENT
  readlink /a -> err ENOENT
  get /a 0 300 -> err ENOENT
  lstat /a/b -> err ENOENT
  list /a/b -> err ENOENT
  readlink /a/b -> err ENOENT
  get /a/b 0 300 -> err ENOENT
  lstat /a/f -> err ENOENT
  list /a/f -> err ENOENT
  readlink /a/f -> err ENOENT
  get /a/f 0 300 -> err ENOENT
  list /l -> err ENOENT
  get /l 0 300 -> err ENOENT
  lstat /c -> stat number 4 kind dir mode 0755 links 1 size 0
  list /c -> names b f
  readlink /c -> err EINVAL
  get /c 0 300 -> err EISDIR
  lstat /c/b -> stat number 5 kind dir mode 0700 links 1 size 0
  list /c/b -> names
  readlink /c/b -> err EINVAL
  get /c/b 0 300 -> err EISDIR
  lstat /c/f -> stat number 6 kind file mode 0644 links 2 size 3
  list /c/f -> err ENOTDIR
  readlink /c/f -> err EINVAL
  get /c/f 0 300 -> data 61ff63
  + list / -> names c g l z
  + lstat /z -> stat number 8 kind dir mode 0755 links 1 size 0
  + list /z -> names
  + readlink /z -> err EINVAL
  + get /z 0 300 -> err EISDIR
  +++ snap list -> snaps s1 z
  +++ in z list / -> names c g l z
  +++ in z list /a -> err ENOENT
  +++ in z list /b -> err ENOENT
  +++ in z list /c -> names b f
  +++ in z readlink /l -> text a/f
  +++ in z get /g 0 300 -> data 61ff63
  +++ in z get /h 0 300 -> err ENOENT
  +++ in z lstat /z -> stat number 8 kind dir mode 0755 links 1 size 0
  without 14 stat /l -> stat number 6 kind file mode 0644 links 2 size 3
  without 15 rename /c/b /b -> err ENOENT
  without 17 unlink /c/f -> err ENOENT
  without 18 fstat 0 -> stat number 6 kind file mode 0644 links 1 size 3
  without 23 mkdir /b/e -> err ENOENT
  without 27 rmdir /c -> err ENOENT
  without 28 in s2 list / -> names a h l
  without 29 list / -> names a h l
  without 33 rename /l /b/e -> err ENOENT
  without 34 rename /b /b/e/x -> err ENOENT
command stat /l -> err ENOENT
  + list / -> names c g l z
  + lstat /z -> stat number 8 kind dir mode 0755 links 1 size 0
  + list /z -> names
  + readlink /z -> err EINVAL
  + get /z 0 300 -> err EISDIR
  +++ snap list -> snaps s1 z
  +++ in z list / -> names c g l z
  +++ in z list /a -> err ENOENT
  +++ in z list /b -> err ENOENT
  +++ in z list /c -> names b f
  +++ in z readlink /l -> text a/f
  +++ in z get /g 0 300 -> data 61ff63
  +++ in z get /h 0 300 -> err ENOENT
  +++ in z lstat /z -> stat number 8 kind dir mode 0755 links 1 size 0
command rename /c/b /b -> ok
  cut 39 none 0..18
  cut 40 none 0..1
  list / -> names b c g l
  list /c -> names f
  lstat /c/b -> err ENOENT
  list /c/b -> err ENOENT
  readlink /c/b -> err ENOENT
  get /c/b 0 300 -> err ENOENT
  lstat /b -> stat number 5 kind dir mode 0700 links 1 size 0
  list /b -> names
  readlink /b -> err EINVAL
  get /b 0 300 -> err EISDIR
  + list / -> names b c g l z
  + lstat /z -> stat number 8 kind dir mode 0755 links 1 size 0
  + list /z -> names
  + readlink /z -> err EINVAL
  + get /z 0 300 -> err EISDIR
  +++ snap list -> snaps s1 z
  +++ in z list / -> names b c g l z
  +++ in z list /a -> err ENOENT
  +++ in z list /b -> names
  +++ in z list /c -> names f
  +++ in z readlink /l -> text a/f
  +++ in z get /g 0 300 -> data 61ff63
  +++ in z get /h 0 300 -> err ENOENT
  +++ in z lstat /z -> stat number 8 kind dir mode 0755 links 1 size 0
  without 23 mkdir /b/e -> err ENOENT
  without 27 rmdir /c -> err ENOTEMPTY
  without 28 in s2 list / -> names c h l
  without 29 list / -> names c h l
  without 33 rename /l /b/e -> err ENOENT
  without 34 rename /b /b/e/x -> err ENOENT
command unlink /g -> ok
  cut 41 none 0..12
  cut 42 none 0..1
  list / -> names b c l
  lstat /g -> err ENOENT
  list /g -> err ENOENT
  readlink /g -> err ENOENT
  get /g 0 300 -> err ENOENT
  lstat /c/f -> stat number 6 kind file mode 0644 links 1 size 3
  + list / -> names b c l z
  + lstat /z -> stat number 8 kind dir mode 0755 links 1 size 0
  + list /z -> names
  + readlink /z -> err EINVAL
  + get /z 0 300 -> err EISDIR
  +++ snap list -> snaps s1 z
  +++ in z list / -> names b c l z
  +++ in z list /a -> err ENOENT
  +++ in z list /b -> names
  +++ in z list /c -> names f
  +++ in z readlink /l -> text a/f
  +++ in z get /g 0 300 -> err ENOENT
  +++ in z get /h 0 300 -> err ENOENT
  +++ in z lstat /z -> stat number 8 kind dir mode 0755 links 1 size 0
  without 18 fstat 0 -> stat number 6 kind file mode 0644 links 1 size 3
  without 28 in s2 list / -> names b c g h l
  without 29 list / -> names b g h l
command unlink /c/f -> ok
  cut 43 none 0..12
  cut 44 none 0..1
  list /c -> names
  lstat /c/f -> err ENOENT
  list /c/f -> err ENOENT
  readlink /c/f -> err ENOENT
  get /c/f 0 300 -> err ENOENT
  + list / -> names b c l z
  + lstat /z -> stat number 6 kind dir mode 0755 links 1 size 0
  + list /z -> names
  + readlink /z -> err EINVAL
  + get /z 0 300 -> err EISDIR
  +++ snap list -> snaps s1 z
  +++ in z list / -> names b c l z
  +++ in z list /a -> err ENOENT
  +++ in z list /b -> names
  +++ in z list /c -> names
  +++ in z readlink /l -> text a/f
  +++ in z get /g 0 300 -> err ENOENT
  +++ in z get /h 0 300 -> err ENOENT
  +++ in z lstat /z -> stat number 6 kind dir mode 0755 links 1 size 0
  without 18 fstat 0 -> stat number 6 kind file mode 0644 links 1 size 3
  without 27 rmdir /c -> err ENOTEMPTY
  without 29 list / -> names b c h l
command fstat 0 -> stat number 6 kind file mode 0644 links 0 size 3
  + list / -> names b c l z
  + lstat /z -> stat number 6 kind dir mode 0755 links 1 size 0
  + list /z -> names
  + readlink /z -> err EINVAL
  + get /z 0 300 -> err EISDIR
  +++ snap list -> snaps s1 z
  +++ in z list / -> names b c l z
  +++ in z list /a -> err ENOENT
  +++ in z list /b -> names
  +++ in z list /c -> names
  +++ in z readlink /l -> text a/f
  +++ in z get /g 0 300 -> err ENOENT
  +++ in z get /h 0 300 -> err ENOENT
  +++ in z lstat /z -> stat number 6 kind dir mode 0755 links 1 size 0
command sync -> ok
  cut 45..48 none,all,10,2,021 0
  + list / -> names b c l z
  + lstat /z -> stat number 6 kind dir mode 0755 links 1 size 0
  + list /z -> names
  + readlink /z -> err EINVAL
  + get /z 0 300 -> err EISDIR
  +++ snap list -> snaps s1 z
  +++ in z list / -> names b c l z
  +++ in z list /a -> err ENOENT
  +++ in z list /b -> names
  +++ in z list /c -> names
  +++ in z readlink /l -> text a/f
  +++ in z get /g 0 300 -> err ENOENT
  +++ in z get /h 0 300 -> err ENOENT
  +++ in z lstat /z -> stat number 6 kind dir mode 0755 links 1 size 0
command pwrite 0 8192 01 -> wrote 1
  cut 49 none 0..1
  cut 50 none 0..9
  cut 51 none 0..1
  cut 52 none 0..23
  cut 53 none 0..1
  + list / -> names b c l z
  + lstat /z -> stat number 6 kind dir mode 0755 links 1 size 0
  + list /z -> names
  + readlink /z -> err EINVAL
  + get /z 0 300 -> err EISDIR
  +++ snap list -> snaps s1 z
  +++ in z list / -> names b c l z
  +++ in z list /a -> err ENOENT
  +++ in z list /b -> names
  +++ in z list /c -> names
  +++ in z readlink /l -> text a/f
  +++ in z get /g 0 300 -> err ENOENT
  +++ in z get /h 0 300 -> err ENOENT
  +++ in z lstat /z -> stat number 6 kind dir mode 0755 links 1 size 0
command open /h wcx 0600 -> fd 1
  cut 54 none 0..19
  cut 55 none 0..1
  list / -> names b c h l
  lstat /h -> stat number 8 kind file mode 0600 links 1 size 0
  list /h -> err ENOTDIR
  readlink /h -> err EINVAL
  get /h 0 300 -> data -
  + list / -> names b c h l z
  + lstat /z -> stat number 6 kind dir mode 0755 links 1 size 0
  + list /z -> names
  + readlink /z -> err EINVAL
  + get /z 0 300 -> err EISDIR
  +++ snap list -> snaps s1 z
  +++ in z list / -> names b c h l z
  +++ in z list /a -> err ENOENT
  +++ in z list /b -> names
  +++ in z list /c -> names
  +++ in z readlink /l -> text a/f
  +++ in z get /g 0 300 -> err ENOENT
  +++ in z get /h 0 300 -> data -
  +++ in z lstat /z -> stat number 6 kind dir mode 0755 links 1 size 0
  without 24 truncate /h 200 -> err ENOENT
  without 25 chmod /h 0640 -> err ENOENT
  without 28 in s2 list / -> names b c l
  without 29 list / -> names b l
  without 35 open /h rw -> err ENOENT
  without 36 read 0 3 -> err EBADF
  without 37 ftruncate 0 2 -> err EBADF
  without 38 lseek 0 end 1 -> err EBADF
  without 39 write 0 07 -> err EBADF
  without 40 get /h 0 9 -> err ENOENT
  without 41 close 0 -> err EBADF
  without 42 close 1 -> err EBADF
command close 0 -> ok
  + list / -> names b c h l z
  + lstat /z -> stat number 6 kind dir mode 0755 links 1 size 0
  + list /z -> names
  + readlink /z -> err EINVAL
  + get /z 0 300 -> err EISDIR
  +++ snap list -> snaps s1 z
  +++ in z list / -> names b c h l z
  +++ in z list /a -> err ENOENT
  +++ in z list /b -> names
  +++ in z list /c -> names
  +++ in z readlink /l -> text a/f
  +++ in z get /g 0 300 -> err ENOENT
  +++ in z get /h 0 300 -> data -
  +++ in z lstat /z -> stat number 6 kind dir mode 0755 links 1 size 0
  without 35 open /h rw -> fd 2
  without 40 get /h 0 9 -> data {30*18}
  without 43 snap restore s2 -> err EBUSY
command mkdir /b/e -> ok
  cut 56 none 0..19
  cut 57 none 0..1
  list /b -> names e
  lstat /b/e -> stat number 6 kind dir mode 0755 links 1 size 0
  list /b/e -> names
  readlink /b/e -> err EINVAL
  get /b/e 0 300 -> err EISDIR
  + list / -> names b c h l z
  + lstat /z -> stat number 9 kind dir mode 0755 links 1 size 0
  + list /z -> names
  + readlink /z -> err EINVAL
  + get /z 0 300 -> err EISDIR
  +++ snap list -> snaps s1 z
  +++ in z list / -> names b c h l z
  +++ in z list /a -> err ENOENT
  +++ in z list /b -> names e
  +++ in z list /c -> names
  +++ in z readlink /l -> text a/f
  +++ in z get /g 0 300 -> err ENOENT
  +++ in z get /h 0 300 -> data -
  +++ in z lstat /z -> stat number 9 kind dir mode 0755 links 1 size 0
  without 33 rename /l /b/e -> ok
  without 34 rename /b /b/e/x -> err ENOENT
command truncate /h 200 -> ok
  cut 58 none 0..18
  cut 59 none 0..1
  lstat /h -> stat number 8 kind file mode 0600 links 1 size 200
  get /h 0 300 -> data {30*400}
  + list / -> names b c h l z
  + lstat /z -> stat number 9 kind dir mode 0755 links 1 size 0
  + list /z -> names
  + readlink /z -> err EINVAL
  + get /z 0 300 -> err EISDIR
  +++ snap list -> snaps s1 z
  +++ in z list / -> names b c h l z
  +++ in z list /a -> err ENOENT
  +++ in z list /b -> names e
  +++ in z list /c -> names
  +++ in z readlink /l -> text a/f
  +++ in z get /g 0 300 -> err ENOENT
  +++ in z get /h 0 300 -> data {30*400}
  +++ in z lstat /z -> stat number 9 kind dir mode 0755 links 1 size 0
  without 36 read 0 3 -> data -
command chmod /h 0640 -> ok
  cut 60 none 0..12
  cut 61 none 0..1
  lstat /h -> stat number 8 kind file mode 0640 links 1 size 200
  + list / -> names b c h l z
  + lstat /z -> stat number 9 kind dir mode 0755 links 1 size 0
  + list /z -> names
  + readlink /z -> err EINVAL
  + get /z 0 300 -> err EISDIR
  +++ snap list -> snaps s1 z
  +++ in z list / -> names b c h l z
  +++ in z list /a -> err ENOENT
  +++ in z list /b -> names e
  +++ in z list /c -> names
  +++ in z readlink /l -> text a/f
  +++ in z get /g 0 300 -> err ENOENT
  +++ in z get /h 0 300 -> data {30*400}
  +++ in z lstat /z -> stat number 9 kind dir mode 0755 links 1 size 0
command snap take s2 -> ok
  cut 62..70 none,all,10,2,021 0
  snap list -> snaps s1 s2
  in s2 lstat / -> stat number 3 kind dir mode 0755 links 1 size 0
  in s2 list / -> names b c h l
  in s2 readlink / -> err EINVAL
  in s2 get / 0 300 -> err EISDIR
  in s2 lstat /a -> err ENOENT
  in s2 list /a -> err ENOENT
  in s2 readlink /a -> err ENOENT
  in s2 get /a 0 300 -> err ENOENT
  in s2 lstat /a/b -> err ENOENT
  in s2 list /a/b -> err ENOENT
  in s2 readlink /a/b -> err ENOENT
  in s2 get /a/b 0 300 -> err ENOENT
  in s2 lstat /a/f -> err ENOENT
  in s2 list /a/f -> err ENOENT
  in s2 readlink /a/f -> err ENOENT
  in s2 get /a/f 0 300 -> err ENOENT
  in s2 lstat /l -> stat number 7 kind link mode 0777 links 1 size 3
  in s2 list /l -> err ENOENT
  in s2 readlink /l -> text a/f
  in s2 get /l 0 300 -> err ENOENT
  in s2 lstat /g -> err ENOENT
  in s2 list /g -> err ENOENT
  in s2 readlink /g -> err ENOENT
  in s2 get /g 0 300 -> err ENOENT
  in s2 lstat /c -> stat number 4 kind dir mode 0755 links 1 size 0
  in s2 list /c -> names
  in s2 readlink /c -> err EINVAL
  in s2 get /c 0 300 -> err EISDIR
  in s2 lstat /c/b -> err ENOENT
  in s2 list /c/b -> err ENOENT
  in s2 readlink /c/b -> err ENOENT
  in s2 get /c/b 0 300 -> err ENOENT
  in s2 lstat /c/f -> err ENOENT
  in s2 list /c/f -> err ENOENT
  in s2 readlink /c/f -> err ENOENT
  in s2 get /c/f 0 300 -> err ENOENT
  in s2 lstat /b -> stat number 5 kind dir mode 0700 links 1 size 0
  in s2 list /b -> names e
  in s2 readlink /b -> err EINVAL
  in s2 get /b 0 300 -> err EISDIR
  in s2 lstat /b/e -> stat number 6 kind dir mode 0755 links 1 size 0
  in s2 list /b/e -> names
  in s2 readlink /b/e -> err EINVAL
  in s2 get /b/e 0 300 -> err EISDIR
  in s2 lstat /h -> stat number 8 kind file mode 0640 links 1 size 200
  in s2 list /h -> err ENOTDIR
  in s2 readlink /h -> err EINVAL
  in s2 get /h 0 300 -> data {30*400}
  in s2 lstat /z -> err ENOENT
  in s2 list /z -> err ENOENT
  in s2 readlink /z -> err ENOENT
  in s2 get /z 0 300 -> err ENOENT
  + list / -> names b c h l z
  + lstat /z -> stat number 9 kind dir mode 0755 links 1 size 0
  + list /z -> names
  + readlink /z -> err EINVAL
  + get /z 0 300 -> err EISDIR
  +++ snap list -> snaps s1 s2 z
  +++ in z list / -> names b c h l z
  +++ in z list /a -> err ENOENT
  +++ in z list /b -> names e
  +++ in z list /c -> names
  +++ in z readlink /l -> text a/f
  +++ in z get /g 0 300 -> err ENOENT
  +++ in z get /h 0 300 -> data {30*400}
  +++ in z lstat /z -> stat number 9 kind dir mode 0755 links 1 size 0
  without 28 in s2 list / -> err NOSNAP
  without 32 snap list -> snaps
  without 43 snap restore s2 -> err NOSNAP
command rmdir /c -> ok
  cut 71 none 0..1
  cut 72 none 0..9
  cut 73 none 0..1
  cut 74 none 0..12
  cut 75 none 0..1
  list / -> names b h l
  lstat /c -> err ENOENT
  list /c -> err ENOENT
  readlink /c -> err ENOENT
  get /c 0 300 -> err ENOENT
  + list / -> names b h l z
  + lstat /z -> stat number 4 kind dir mode 0755 links 1 size 0
  + list /z -> names
  + readlink /z -> err EINVAL
  + get /z 0 300 -> err EISDIR
  +++ snap list -> snaps s1 s2 z
  +++ in z list / -> names b h l z
  +++ in z list /a -> err ENOENT
  +++ in z list /b -> names e
  +++ in z list /c -> err ENOENT
  +++ in z readlink /l -> text a/f
  +++ in z get /g 0 300 -> err ENOENT
  +++ in z get /h 0 300 -> data {30*400}
  +++ in z lstat /z -> stat number 4 kind dir mode 0755 links 1 size 0
  without 29 list / -> names b c h l
command in s2 list / -> names b c h l
  + list / -> names b h l z
  + lstat /z -> stat number 4 kind dir mode 0755 links 1 size 0
  + list /z -> names
  + readlink /z -> err EINVAL
  + get /z 0 300 -> err EISDIR
  +++ snap list -> snaps s1 s2 z
  +++ in z list / -> names b h l z
  +++ in z list /a -> err ENOENT
  +++ in z list /b -> names e
  +++ in z list /c -> err ENOENT
  +++ in z readlink /l -> text a/f
  +++ in z get /g 0 300 -> err ENOENT
  +++ in z get /h 0 300 -> data {30*400}
  +++ in z lstat /z -> stat number 4 kind dir mode 0755 links 1 size 0
command list / -> names b h l
  + list / -> names b h l z
  + lstat /z -> stat number 4 kind dir mode 0755 links 1 size 0
  + list /z -> names
  + readlink /z -> err EINVAL
  + get /z 0 300 -> err EISDIR
  +++ snap list -> snaps s1 s2 z
  +++ in z list / -> names b h l z
  +++ in z list /a -> err ENOENT
  +++ in z list /b -> names e
  +++ in z list /c -> err ENOENT
  +++ in z readlink /l -> text a/f
  +++ in z get /g 0 300 -> err ENOENT
  +++ in z get /h 0 300 -> data {30*400}
  +++ in z lstat /z -> stat number 4 kind dir mode 0755 links 1 size 0
command in s1 stat /a/f -> stat number 6 kind file mode 0644 links 2 size 3
  + list / -> names b h l z
  + lstat /z -> stat number 4 kind dir mode 0755 links 1 size 0
  + list /z -> names
  + readlink /z -> err EINVAL
  + get /z 0 300 -> err EISDIR
  +++ snap list -> snaps s1 s2 z
  +++ in z list / -> names b h l z
  +++ in z list /a -> err ENOENT
  +++ in z list /b -> names e
  +++ in z list /c -> err ENOENT
  +++ in z readlink /l -> text a/f
  +++ in z get /g 0 300 -> err ENOENT
  +++ in z get /h 0 300 -> data {30*400}
  +++ in z lstat /z -> stat number 4 kind dir mode 0755 links 1 size 0
command snap delete s1 -> ok
  cut 76..79 none,all,10,2,021 0
  snap list -> snaps s2
  in s1 lstat / -> err NOSNAP
  in s1 list / -> err NOSNAP
  in s1 readlink / -> err NOSNAP
  in s1 get / 0 300 -> err NOSNAP
  in s1 lstat /a -> err NOSNAP
  in s1 list /a -> err NOSNAP
  in s1 readlink /a -> err NOSNAP
  in s1 get /a 0 300 -> err NOSNAP
  in s1 lstat /a/b -> err NOSNAP
  in s1 list /a/b -> err NOSNAP
  in s1 readlink /a/b -> err NOSNAP
  in s1 get /a/b 0 300 -> err NOSNAP
  in s1 lstat /a/f -> err NOSNAP
  in s1 list /a/f -> err NOSNAP
  in s1 readlink /a/f -> err NOSNAP
  in s1 get /a/f 0 300 -> err NOSNAP
  in s1 lstat /l -> err NOSNAP
  in s1 list /l -> err NOSNAP
  in s1 readlink /l -> err NOSNAP
  in s1 get /l 0 300 -> err NOSNAP
  in s1 lstat /g -> err NOSNAP
  in s1 list /g -> err NOSNAP
  in s1 readlink /g -> err NOSNAP
  in s1 get /g 0 300 -> err NOSNAP
  in s1 lstat /c -> err NOSNAP
  in s1 list /c -> err NOSNAP
  in s1 readlink /c -> err NOSNAP
  in s1 get /c 0 300 -> err NOSNAP
  in s1 lstat /c/b -> err NOSNAP
  in s1 list /c/b -> err NOSNAP
  in s1 readlink /c/b -> err NOSNAP
  in s1 get /c/b 0 300 -> err NOSNAP
  in s1 lstat /c/f -> err NOSNAP
  in s1 list /c/f -> err NOSNAP
  in s1 readlink /c/f -> err NOSNAP
  in s1 get /c/f 0 300 -> err NOSNAP
  in s1 lstat /b -> err NOSNAP
  in s1 list /b -> err NOSNAP
  in s1 readlink /b -> err NOSNAP
  in s1 get /b 0 300 -> err NOSNAP
  in s1 lstat /b/e -> err NOSNAP
  in s1 list /b/e -> err NOSNAP
  in s1 readlink /b/e -> err NOSNAP
  in s1 get /b/e 0 300 -> err NOSNAP
  in s1 lstat /h -> err NOSNAP
  in s1 list /h -> err NOSNAP
  in s1 readlink /h -> err NOSNAP
  in s1 get /h 0 300 -> err NOSNAP
  in s1 lstat /z -> err NOSNAP
  in s1 list /z -> err NOSNAP
  in s1 readlink /z -> err NOSNAP
  in s1 get /z 0 300 -> err NOSNAP
  + list / -> names b h l z
  + lstat /z -> stat number 4 kind dir mode 0755 links 1 size 0
  + list /z -> names
  + readlink /z -> err EINVAL
  + get /z 0 300 -> err EISDIR
  +++ snap list -> snaps s2 z
  +++ in z list / -> names b h l z
  +++ in z list /a -> err ENOENT
  +++ in z list /b -> names e
  +++ in z list /c -> err ENOENT
  +++ in z readlink /l -> text a/f
  +++ in z get /g 0 300 -> err ENOENT
  +++ in z get /h 0 300 -> data {30*400}
  +++ in z lstat /z -> stat number 4 kind dir mode 0755 links 1 size 0
  without 32 snap list -> snaps s1 s2
command snap list -> snaps s2
  + list / -> names b h l z
  + lstat /z -> stat number 4 kind dir mode 0755 links 1 size 0
  + list /z -> names
  + readlink /z -> err EINVAL
  + get /z 0 300 -> err EISDIR
  +++ snap list -> snaps s2 z
  +++ in z list / -> names b h l z
  +++ in z list /a -> err ENOENT
  +++ in z list /b -> names e
  +++ in z list /c -> err ENOENT
  +++ in z readlink /l -> text a/f
  +++ in z get /g 0 300 -> err ENOENT
  +++ in z get /h 0 300 -> data {30*400}
  +++ in z lstat /z -> stat number 4 kind dir mode 0755 links 1 size 0
command rename /l /b/e -> err EISDIR
  + list / -> names b h l z
  + lstat /z -> stat number 4 kind dir mode 0755 links 1 size 0
  + list /z -> names
  + readlink /z -> err EINVAL
  + get /z 0 300 -> err EISDIR
  +++ snap list -> snaps s2 z
  +++ in z list / -> names b h l z
  +++ in z list /a -> err ENOENT
  +++ in z list /b -> names e
  +++ in z list /c -> err ENOENT
  +++ in z readlink /l -> text a/f
  +++ in z get /g 0 300 -> err ENOENT
  +++ in z get /h 0 300 -> data {30*400}
  +++ in z lstat /z -> stat number 4 kind dir mode 0755 links 1 size 0
command rename /b /b/e/x -> err EINVAL
  + list / -> names b h l z
  + lstat /z -> stat number 4 kind dir mode 0755 links 1 size 0
  + list /z -> names
  + readlink /z -> err EINVAL
  + get /z 0 300 -> err EISDIR
  +++ snap list -> snaps s2 z
  +++ in z list / -> names b h l z
  +++ in z list /a -> err ENOENT
  +++ in z list /b -> names e
  +++ in z list /c -> err ENOENT
  +++ in z readlink /l -> text a/f
  +++ in z get /g 0 300 -> err ENOENT
  +++ in z get /h 0 300 -> data {30*400}
  +++ in z lstat /z -> stat number 4 kind dir mode 0755 links 1 size 0
command open /h rw -> fd 0
  + list / -> names b h l z
  + lstat /z -> stat number 4 kind dir mode 0755 links 1 size 0
  + list /z -> names
  + readlink /z -> err EINVAL
  + get /z 0 300 -> err EISDIR
  +++ snap list -> snaps s2 z
  +++ in z list / -> names b h l z
  +++ in z list /a -> err ENOENT
  +++ in z list /b -> names e
  +++ in z list /c -> err ENOENT
  +++ in z readlink /l -> text a/f
  +++ in z get /g 0 300 -> err ENOENT
  +++ in z get /h 0 300 -> data {30*400}
  +++ in z lstat /z -> stat number 4 kind dir mode 0755 links 1 size 0
  without 36 read 0 3 -> err EBADF
  without 37 ftruncate 0 2 -> err EBADF
  without 38 lseek 0 end 1 -> err EBADF
  without 39 write 0 07 -> err EBADF
  without 40 get /h 0 9 -> data {30*18}
  without 41 close 0 -> err EBADF
command read 0 3 -> data 000000
  + list / -> names b h l z
  + lstat /z -> stat number 4 kind dir mode 0755 links 1 size 0
  + list /z -> names
  + readlink /z -> err EINVAL
  + get /z 0 300 -> err EISDIR
  +++ snap list -> snaps s2 z
  +++ in z list / -> names b h l z
  +++ in z list /a -> err ENOENT
  +++ in z list /b -> names e
  +++ in z list /c -> err ENOENT
  +++ in z readlink /l -> text a/f
  +++ in z get /g 0 300 -> err ENOENT
  +++ in z get /h 0 300 -> data {30*400}
  +++ in z lstat /z -> stat number 4 kind dir mode 0755 links 1 size 0
command ftruncate 0 2 -> ok
  cut 80 none 0..1
  cut 81 none 0..9
  cut 82 none 0..1
  cut 83 none 0..18
  cut 84 none 0..1
  lstat /h -> stat number 8 kind file mode 0640 links 1 size 2
  get /h 0 300 -> data 0000
  + list / -> names b h l z
  + lstat /z -> stat number 4 kind dir mode 0755 links 1 size 0
  + list /z -> names
  + readlink /z -> err EINVAL
  + get /z 0 300 -> err EISDIR
  +++ snap list -> snaps s2 z
  +++ in z list / -> names b h l z
  +++ in z list /a -> err ENOENT
  +++ in z list /b -> names e
  +++ in z list /c -> err ENOENT
  +++ in z readlink /l -> text a/f
  +++ in z get /g 0 300 -> err ENOENT
  +++ in z get /h 0 300 -> data 0000
  +++ in z lstat /z -> stat number 4 kind dir mode 0755 links 1 size 0
  without 38 lseek 0 end 1 -> at 201
  without 40 get /h 0 9 -> data {30*18}
command lseek 0 end 1 -> at 3
  + list / -> names b h l z
  + lstat /z -> stat number 4 kind dir mode 0755 links 1 size 0
  + list /z -> names
  + readlink /z -> err EINVAL
  + get /z 0 300 -> err EISDIR
  +++ snap list -> snaps s2 z
  +++ in z list / -> names b h l z
  +++ in z list /a -> err ENOENT
  +++ in z list /b -> names e
  +++ in z list /c -> err ENOENT
  +++ in z readlink /l -> text a/f
  +++ in z get /g 0 300 -> err ENOENT
  +++ in z get /h 0 300 -> data 0000
  +++ in z lstat /z -> stat number 4 kind dir mode 0755 links 1 size 0
command write 0 07 -> wrote 1
  cut 85 none 0..23
  cut 86 none 0..1
  lstat /h -> stat number 8 kind file mode 0640 links 1 size 4
  get /h 0 300 -> data 00000007
  + list / -> names b h l z
  + lstat /z -> stat number 4 kind dir mode 0755 links 1 size 0
  + list /z -> names
  + readlink /z -> err EINVAL
  + get /z 0 300 -> err EISDIR
  +++ snap list -> snaps s2 z
  +++ in z list / -> names b h l z
  +++ in z list /a -> err ENOENT
  +++ in z list /b -> names e
  +++ in z list /c -> err ENOENT
  +++ in z readlink /l -> text a/f
  +++ in z get /g 0 300 -> err ENOENT
  +++ in z get /h 0 300 -> data 00000007
  +++ in z lstat /z -> stat number 4 kind dir mode 0755 links 1 size 0
  without 40 get /h 0 9 -> data 0000
command get /h 0 9 -> data 00000007
  + list / -> names b h l z
  + lstat /z -> stat number 4 kind dir mode 0755 links 1 size 0
  + list /z -> names
  + readlink /z -> err EINVAL
  + get /z 0 300 -> err EISDIR
  +++ snap list -> snaps s2 z
  +++ in z list / -> names b h l z
  +++ in z list /a -> err ENOENT
  +++ in z list /b -> names e
  +++ in z list /c -> err ENOENT
  +++ in z readlink /l -> text a/f
  +++ in z get /g 0 300 -> err ENOENT
  +++ in z get /h 0 300 -> data 00000007
  +++ in z lstat /z -> stat number 4 kind dir mode 0755 links 1 size 0
command close 0 -> ok
  + list / -> names b h l z
  + lstat /z -> stat number 4 kind dir mode 0755 links 1 size 0
  + list /z -> names
  + readlink /z -> err EINVAL
  + get /z 0 300 -> err EISDIR
  +++ snap list -> snaps s2 z
  +++ in z list / -> names b h l z
  +++ in z list /a -> err ENOENT
  +++ in z list /b -> names e
  +++ in z list /c -> err ENOENT
  +++ in z readlink /l -> text a/f
  +++ in z get /g 0 300 -> err ENOENT
  +++ in z get /h 0 300 -> data 00000007
  +++ in z lstat /z -> stat number 4 kind dir mode 0755 links 1 size 0
  without 43 snap restore s2 -> err EBUSY
command close 1 -> ok
  + list / -> names b h l z
  + lstat /z -> stat number 4 kind dir mode 0755 links 1 size 0
  + list /z -> names
  + readlink /z -> err EINVAL
  + get /z 0 300 -> err EISDIR
  +++ snap list -> snaps s2 z
  +++ in z list / -> names b h l z
  +++ in z list /a -> err ENOENT
  +++ in z list /b -> names e
  +++ in z list /c -> err ENOENT
  +++ in z readlink /l -> text a/f
  +++ in z get /g 0 300 -> err ENOENT
  +++ in z get /h 0 300 -> data 00000007
  +++ in z lstat /z -> stat number 4 kind dir mode 0755 links 1 size 0
  without 43 snap restore s2 -> err EBUSY
command snap restore s2 -> ok
  cut 87..92 none,all,10,2,021 0
  list / -> names b c h l
  lstat /c -> stat number 4 kind dir mode 0755 links 1 size 0
  list /c -> names
  readlink /c -> err EINVAL
  get /c 0 300 -> err EISDIR
  lstat /h -> stat number 8 kind file mode 0640 links 1 size 200
  get /h 0 300 -> data {30*400}
  + list / -> names b c h l z
  + lstat /z -> stat number 9 kind dir mode 0755 links 1 size 0
  + list /z -> names
  + readlink /z -> err EINVAL
  + get /z 0 300 -> err EISDIR
  +++ snap list -> snaps s2 z
  +++ in z list / -> names b c h l z
  +++ in z list /a -> err ENOENT
  +++ in z list /b -> names e
  +++ in z list /c -> names
  +++ in z readlink /l -> text a/f
  +++ in z get /g 0 300 -> err ENOENT
  +++ in z get /h 0 300 -> data {30*400}
  +++ in z lstat /z -> stat number 9 kind dir mode 0755 links 1 size 0
