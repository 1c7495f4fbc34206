# An image of version 1 with two snapshots, as a program made it that wrote this version. Commands go on from it: a file over
# 67,108,864 bytes, which only version 2 has, consistency points, a snapshot, and the way back to it and to the first one. They are cut
# within each write; of the cuts behind these those are tried whose turn it is.
# How a story is written. A line that is empty or begins with `#` says nothing.
#
#   image BLOCKS INODES HALF        a new image of these sizes
#   disk AT DIGITS, nvram AT DIGITS    bytes of it, two hexadecimal digits each: where there are such lines no image is made, and these
#                                   stand over zeros
#   before COMMAND -> REPLY         what is run on it before anything is tried
#   command COMMAND -> REPLY        the story's commands; they run on what that left. Each is spelled as it is written again
#   tail COMMAND -> REPLY           commands that run on what a cut left, and are cut in their turn
#   probe COMMAND -> REPLY          a reading command, and its reply on the image before the first command
#   start                           lines about what is shown before the first command follow
#   again N                         of all second cuts, which come within each write of the tail behind each cut, each N-th is tried only
#   failing                         each device call fails in turn
#   quiet N                         those behind the first N commands make no device call
#   sweep disk A..B, sweep nvram A..B    each byte from A to B becomes 00 and ff in turn: a mount, the commands and a check come to an end
#
# Two spaces before them, lines about the command above:
#
#   COMMAND -> REPLY                a reading command now has another reply than behind the command before
#   + COMMAND -> REPLY              it has this reply where the tail's first command comes next; ++ where two come, +++ for three
#   cut A..B KEEP,KEEP C..D         these device writes are the command's, and the power is to be cut within each: once for each KEEP, which
#                                   says what of the sectors written since the last sync stays (`none`, `all`, or by digits: 1 stays, 0 doesn't,
#                                   2 can't be read then), and once for each number of bytes that stay of a write to the NVRAM
#   without N COMMAND -> REPLY      what command N is answered in a run without this one
#
# Behind a cut within a command the replies are those of the commands before, and a mount then shows what the reading commands show
# behind these, or behind one command more. Where a read fails one command answers `err EIO`, and all others as in a run without it;
# where a write or a sync fails it does, and then all answer `err FAILED`, and a mount shows the state with or without it.
# In texts {HH} is a byte, {HH*N} so many of it, and {A..B HH*N} the numbers from A to B, each in three digits with so many of the byte
# behind it.

image 128 32 131072
disk 0 5741464c524f4f540100000005000000000000008000000020000000000002000400000001000000002000000000000001
disk 96 07
disk 224 0200000003
disk 4096 5741464c524f4f540100000006000000000000008000000020000000000002000400000001000000002000000000000001
disk 4192 0f
disk 4320 0200000003
disk 8192 0100000000000000027331
disk 8264 0400000001000000002000000000000001
disk 8328 05
disk 12288 0200000000000000027332
disk 12360 0400000001000000002000000000000001
disk 12424 0b
disk 16384 040000000161
disk 20672 050000000100000004
disk 20736 1f
disk 20864 0600000001000000000200000000000001
disk 20928 06
disk 21056 0200ed0101000000001000000000000001
disk 21120 04
disk 21248 0200ed0101
disk 24579 80000000800000000000000000010000000100000001
disk 28672 0300000000000000027333
disk 28744 0400000001000000002000000000000001
disk 28808 0f
disk 32768 040000000161050000000166
disk 36864 66
disk 40960 09
disk 45248 050000000100000004
disk 45312 3f
disk 45440 0600000001000000000200000000000001
disk 45504 0c
disk 45632 0200ed0101000000001000000000000001
disk 45696 08
disk 45824 0200ed0101
disk 46016 0100a40101000000010040000000000002
disk 46084 0a
disk 49155 80000000800000008000000000020000000200000002000000000000000100000001000000010000000100000001
disk 53440 050000000100000004
disk 53504 2f
disk 53632 0600000001000000000200000000000001
disk 53696 11
disk 53824 0200ed0101000000001000000000000001
disk 53888 0e
disk 54208 0100a40101000000010040000000000002
disk 54276 0a
disk 57344 050000000166
disk 61632 050000000100000004
disk 61696 2f
disk 61824 0600000001000000000200000000000001
disk 61888 10
disk 62016 0200ed0101000000001000000000000001
disk 62080 0e
disk 62400 0100a40101000000010040000000000002
disk 62468 0a
disk 65539 8000000080000000800000008002000000020000000200000000000000040000000500000005000000040000000400000000000000010000000100000001
disk 69635 8000000080000000800000008002000000020000000200000000000080040000000d0000000d00000004000000040000000100000009000000080000000800000001
nvram 0 010600000000000000010700000003030000000161000001a40101660112000000050500000000004000000000000100000066
probe list / -> names f
probe snap list -> snaps s1 s2
probe lstat /a -> err ENOENT
probe lstat /b -> err ENOENT
probe lstat /f -> stat number 5 kind file mode 0644 links 1 size 4194305
probe get /f 4194303 4 -> data 0066
probe get /f 67108862 9 -> data -
probe lstat /z -> err ENOENT
probe in s1 list / -> names a
probe in s1 get /f 4194303 4 -> err ENOENT
probe in s1 get /f 67108862 9 -> err ENOENT
probe in s2 list / -> names a f
probe in s2 get /f 4194303 4 -> data 0066
probe in s2 get /f 67108862 9 -> data -
probe in s3 list / -> err NOSNAP
probe in s3 get /f 4194303 4 -> err NOSNAP
probe in s3 get /f 67108862 9 -> err NOSNAP
probe in z list / -> err NOSNAP
probe in z get /f 4194303 4 -> err NOSNAP
probe in z get /f 67108862 9 -> err NOSNAP
tail mkdir /z -> ok
tail sync -> ok
tail snap take z -> ok
again 8

start
  + list / -> names f z
  + lstat /z -> stat number 4 kind dir mode 0755 links 1 size 0
  +++ snap list -> snaps s1 s2 z
  +++ in z list / -> names f z
  +++ in z get /f 4194303 4 -> data 0066
  +++ in z get /f 67108862 9 -> data -
command open /f rw -> fd 0
  + list / -> names f z
  + lstat /z -> stat number 4 kind dir mode 0755 links 1 size 0
  +++ snap list -> snaps s1 s2 z
  +++ in z list / -> names f z
  +++ in z get /f 4194303 4 -> data 0066
  +++ in z get /f 67108862 9 -> data -
command pwrite 0 67108862 616263 -> wrote 3
  cut 1 none 0..1
  cut 1 none,all,10,2,021 0
  cut 1 none,all,10,2,021 1
  cut 2 none 0..9
  cut 2 none,all,10,2,021 0
  cut 2 none,all,10,2,021 9
  cut 3 none 0..1
  cut 3 none,all,10,2,021 0
  cut 3 none,all,10,2,021 1
  cut 4 none 0..25
  cut 4 none,all,10,2,021 0
  cut 4 none,all,10,2,021 25
  cut 5 none 0..1
  cut 5 none,all,10,2,021 0
  cut 5 none,all,10,2,021 1
  lstat /f -> stat number 5 kind file mode 0644 links 1 size 67108865
  get /f 4194303 4 -> data 00660000
  get /f 67108862 9 -> data 616263
  + list / -> names f z
  + lstat /z -> stat number 4 kind dir mode 0755 links 1 size 0
  +++ snap list -> snaps s1 s2 z
  +++ in z list / -> names f z
  +++ in z get /f 4194303 4 -> data 00660000
  +++ in z get /f 67108862 9 -> data 616263
command sync -> ok
  cut 6..13 none,all,10,2,021 0
  + list / -> names f z
  + lstat /z -> stat number 4 kind dir mode 0755 links 1 size 0
  +++ snap list -> snaps s1 s2 z
  +++ in z list / -> names f z
  +++ in z get /f 4194303 4 -> data 00660000
  +++ in z get /f 67108862 9 -> data 616263
command snap take s3 -> ok
  cut 14..17 none,all,10,2,021 0
  snap list -> snaps s1 s2 s3
  in s3 list / -> names f
  in s3 get /f 4194303 4 -> data 00660000
  in s3 get /f 67108862 9 -> data 616263
  + list / -> names f z
  + lstat /z -> stat number 4 kind dir mode 0755 links 1 size 0
  +++ snap list -> snaps s1 s2 s3 z
  +++ in z list / -> names f z
  +++ in z get /f 4194303 4 -> data 00660000
  +++ in z get /f 67108862 9 -> data 616263
command ftruncate 0 67108863 -> ok
  cut 18 none 0..1
  cut 18 none,all,10,2,021 0
  cut 18 none,all,10,2,021 1
  cut 19 none 0..9
  cut 19 none,all,10,2,021 0
  cut 19 none,all,10,2,021 9
  cut 20 none 0..1
  cut 20 none,all,10,2,021 0
  cut 20 none,all,10,2,021 1
  cut 21 none 0..18
  cut 21 none,all,10,2,021 0
  cut 21 none,all,10,2,021 18
  cut 22 none 0..1
  cut 22 none,all,10,2,021 0
  cut 22 none,all,10,2,021 1
  lstat /f -> stat number 5 kind file mode 0644 links 1 size 67108863
  get /f 67108862 9 -> data 61
  + list / -> names f z
  + lstat /z -> stat number 4 kind dir mode 0755 links 1 size 0
  +++ snap list -> snaps s1 s2 s3 z
  +++ in z list / -> names f z
  +++ in z get /f 4194303 4 -> data 00660000
  +++ in z get /f 67108862 9 -> data 61
command mkdir /b -> ok
  cut 23 none 0..19
  cut 23 none,all,10,2,021 0
  cut 23 none,all,10,2,021 19
  cut 24 none 0..1
  cut 24 none,all,10,2,021 0
  cut 24 none,all,10,2,021 1
  list / -> names b f
  lstat /b -> stat number 4 kind dir mode 0755 links 1 size 0
  + list / -> names b f z
  + lstat /z -> stat number 6 kind dir mode 0755 links 1 size 0
  +++ snap list -> snaps s1 s2 s3 z
  +++ in z list / -> names b f z
  +++ in z get /f 4194303 4 -> data 00660000
  +++ in z get /f 67108862 9 -> data 61
command snap restore s1 -> err EBUSY
  + list / -> names b f z
  + lstat /z -> stat number 6 kind dir mode 0755 links 1 size 0
  +++ snap list -> snaps s1 s2 s3 z
  +++ in z list / -> names b f z
  +++ in z get /f 4194303 4 -> data 00660000
  +++ in z get /f 67108862 9 -> data 61
command close 0 -> ok
  + list / -> names b f z
  + lstat /z -> stat number 6 kind dir mode 0755 links 1 size 0
  +++ snap list -> snaps s1 s2 s3 z
  +++ in z list / -> names b f z
  +++ in z get /f 4194303 4 -> data 00660000
  +++ in z get /f 67108862 9 -> data 61
command snap delete s2 -> ok
  cut 25..30 none,all,10,2,021 0
  snap list -> snaps s1 s3
  in s2 list / -> err NOSNAP
  in s2 get /f 4194303 4 -> err NOSNAP
  in s2 get /f 67108862 9 -> err NOSNAP
  + list / -> names b f z
  + lstat /z -> stat number 6 kind dir mode 0755 links 1 size 0
  +++ snap list -> snaps s1 s3 z
  +++ in z list / -> names b f z
  +++ in z get /f 4194303 4 -> data 00660000
  +++ in z get /f 67108862 9 -> data 61
command snap restore s3 -> ok
  cut 31..33 none,all,10,2,021 0
  list / -> names f
  lstat /b -> err ENOENT
  lstat /f -> stat number 5 kind file mode 0644 links 1 size 67108865
  get /f 67108862 9 -> data 616263
  + list / -> names f z
  + lstat /z -> stat number 4 kind dir mode 0755 links 1 size 0
  +++ snap list -> snaps s1 s3 z
  +++ in z list / -> names f z
  +++ in z get /f 4194303 4 -> data 00660000
  +++ in z get /f 67108862 9 -> data 616263
command snap restore s1 -> ok
  cut 34..36 none,all,10,2,021 0
  list / -> names a
  lstat /a -> stat number 4 kind dir mode 0755 links 1 size 0
  lstat /f -> err ENOENT
  get /f 4194303 4 -> err ENOENT
  get /f 67108862 9 -> err ENOENT
  + list / -> names a z
  + lstat /z -> stat number 5 kind dir mode 0755 links 1 size 0
  +++ snap list -> snaps s1 s3 z
  +++ in z list / -> names a z
  +++ in z get /f 4194303 4 -> err ENOENT
  +++ in z get /f 67108862 9 -> err ENOENT
command mkdir /c -> ok
  cut 37 none 0..1
  cut 37 none,all,10,2,021 0
  cut 37 none,all,10,2,021 1
  cut 38 none 0..9
  cut 38 none,all,10,2,021 0
  cut 38 none,all,10,2,021 9
  cut 39 none 0..1
  cut 39 none,all,10,2,021 0
  cut 39 none,all,10,2,021 1
  cut 40 none 0..19
  cut 40 none,all,10,2,021 0
  cut 40 none,all,10,2,021 19
  cut 41 none 0..1
  cut 41 none,all,10,2,021 0
  cut 41 none,all,10,2,021 1
  list / -> names a c
  + list / -> names a c z
  + lstat /z -> stat number 6 kind dir mode 0755 links 1 size 0
  +++ snap list -> snaps s1 s3 z
  +++ in z list / -> names a c z
  +++ in z get /f 4194303 4 -> err ENOENT
  +++ in z get /f 67108862 9 -> err ENOENT
