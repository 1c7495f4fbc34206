# Two thousand commands from fixed numbers, each of them spelled as it is written again.
# How a story is written. A line that is empty or begins with `#` says nothing.
#
#   image BLOCKS INODES HALF        a new image of these sizes
#   disk AT DIGITS, nvram AT DIGITS    bytes of it, two hexadecimal digits each: where there are such lines no image is made, and these
#                                   stand over zeros
#   before COMMAND -> REPLY         what is run on it before anything is tried
#   command COMMAND -> REPLY        the story's commands; they run on what that left. Each is spelled as it is written again
#   tail COMMAND -> REPLY           commands that run on what a cut left, and are cut in their turn
#   probe COMMAND -> REPLY          a reading command, and its reply on the image before the first command
#   start                           lines about what is shown before the first command follow
#   again N                         of all second cuts, which come within each write of the tail behind each cut, each N-th is tried only
#   failing                         each device call fails in turn
#   quiet N                         those behind the first N commands make no device call
#   sweep disk A..B, sweep nvram A..B    each byte from A to B becomes 00 and ff in turn: a mount, the commands and a check come to an end
#
# Two spaces before them, lines about the command above:
#
#   COMMAND -> REPLY                a reading command now has another reply than behind the command before
#   + COMMAND -> REPLY              it has this reply where the tail's first command comes next; ++ where two come, +++ for three
#   cut A..B KEEP,KEEP C..D         these device writes are the command's, and the power is to be cut within each: once for each KEEP, which
#                                   says what of the sectors written since the last sync stays (`none`, `all`, or by digits: 1 stays, 0 doesn't,
#                                   2 can't be read then), and once for each number of bytes that stay of a write to the NVRAM
#   without N COMMAND -> REPLY      what command N is answered in a run without this one
#
# Behind a cut within a command the replies are those of the commands before, and a mount then shows what the reading commands show
# behind these, or behind one command more. Where a read fails one command answers `err EIO`, and all others as in a run without it;
# where a write or a sync fails it does, and then all answer `err FAILED`, and a mount shows the state with or without it.
# In texts {HH} is a byte, {HH*N} so many of it, and {A..B HH*N} the numbers from A to B, each in three digits with so many of the byte
# behind it.

image 128 32 131072
command mkdir / -> err EEXIST
command sync -> ok
command open /v rw -> err ENOENT
command in s29 get /a 68719476737 5000 -> err NOSNAP
command symlink % / -> err ENOENT
command read 0 200 -> err EBADF
command mkdir /j 0000 -> ok
command mkdir /d/j 0000 -> err ENOENT
command open /b wc -> fd 0
command mkdir /l -> ok
command link /k/l/k /v/g -> err ENOENT
command pwrite 0 8190 {36*8194} -> wrote 4097
command in s6 mkdir /m/m 0600 -> err NOSNAP
command truncate /b 4096 -> ok
command link /j /r -> err EPERM
command mkdir /e 0444 -> ok
command write 0 6e8a080a -> wrote 4
command open /q/o/h rwc -> err ENOENT
command rmdir /v -> err ENOENT
command truncate /w 0 -> err ENOENT
command unlink /k -> err ENOENT
command write 0 f24d4ec1d96478af -> wrote 8
command snap delete s31 -> err NOSNAP
command open /l rwc -> err EISDIR
command open /c/l/x rwa 0000 -> err ENOENT
command mkdir /w/e/w 0444 -> err ENOENT
command mkdir /a/j 7777 -> err ENOENT
command open /r/g/o rwc -> err ENOENT
command lseek 0 set 8 -> at 8
command in s32 readlink /w -> err NOSNAP
command open /u/l wc 0000 -> err ENOENT
command write 0 de00fb -> wrote 3
command open /m rwca -> fd 1
command open /v rwc -> fd 2
command in s23 stat /k -> err NOSNAP
command mkdir /r/x 0000 -> err ENOENT
command fstat 2 -> stat number 9 kind file mode 0644 links 1 size 0
command symlink / / -> err EEXIST
command write 0 b76d7fb256f41d -> wrote 7
command open /i wc -> fd 3
command open /w rw 0600 -> err ENOENT
command lstat /y -> err ENOENT
command mkdir /s 0600 -> ok
command pwrite 0 126 {34*8192} -> wrote 4096
command open /g rwca 0444 -> fd 4
command mkdir /m -> err EEXIST
command mkdir /v 0600 -> err EEXIST
command snap list -> snaps
command rename /a/. /e -> err EINVAL
command open /m rc -> fd 5
command mkdir /a/. 0600 -> err EINVAL
command snap delete s10 -> err NOSNAP
command mkdir /b/.. 7777 -> err EINVAL
command open /f/b rwc -> err ENOENT
command symlink ././././././././././././././././././././././././././././././././././././././././././././././././././././././././././././././././././././././b /h -> ok
command close 0 -> ok
command close 1 -> ok
command close 2 -> ok
command close 3 -> ok
command close 4 -> ok
command close 5 -> ok
command snap restore s19 -> err NOSNAP
command mkdir /u 0000 -> ok
command open /o/d rwc 0444 -> err ENOENT
command open /nnnnnnnnnnnnnnnnnnnnnnnnnnnnnnnnnnnnnnnnnnnnnnnnnnnnnnnnnnnnnnnnnnnnnnnnnnnnnnnnnnnnnnnnnnnnnnnnnnnnnnnnnnnnnnnnnnnnnnnnnnnnnnnnnnnnnnnnnnnnnnnnnnnnnnnnnnnnnnnnnnnnnnnnnnnnnnnnnnnnnnnnnnnnnnnnnnnnnnnnnnnnnnnnnnnnnnnnnnnnnnnnnnnnnnnnnnnnnnnnnnnnnnnnnnnnnnnn rwc -> err ENAMETOOLONG
command open /m wc 7777 -> fd 0
command rmdir /e -> ok
command rmdir / -> err EBUSY
command mkdir /l/a 0600 -> ok
command open /e/i rwc -> err ENOENT
command symlink .. /w -> ok
command pwrite 0 -1 {39*10000} -> err EINVAL
command pread 0 0 1 -> err EBADF
command open /s/m/o rwcx 0600 -> err ENOENT
command open /s/b/a rwc -> err ENOENT
command open /b/j rwc -> err ENOTDIR
command open /s rwc 0444 -> err EISDIR
command snap take s23 -> ok
command write 0 0682dcf113d89d05 -> wrote 8
command read 0 200 -> err EBADF
command open /g w -> fd 1
command truncate /i/n 130 -> err ENOTDIR
command in s23 get /h 8193 1 -> data -
command link /b /p/f -> err ENOENT
command mkdir /r/u -> err ENOENT
command mkdir /i -> err EEXIST
command snap take s32 -> ok
command open /u/w rt -> err EINVAL
command symlink % /f/b/u -> err ENOENT
command ftruncate 1 4299161600 -> ok
command symlink d/e /o -> ok
command mkdir /x -> ok
command readlink /z/c -> err ENOENT
command in s32 stat /t -> err ENOENT
command rename /s // -> err EINVAL
command rmdir /m -> err ENOTDIR
command read 1 0 -> err EBADF
command ftruncate 0 2 -> ok
command symlink % /w -> err ENOENT
command list /n -> err ENOENT
command open /e rwc 0000 -> fd 2
command write 0 {39*131072} -> wrote 65536
command lseek 2 cur 67108863 -> at 67108863
command pread 0 0 9 -> err EBADF
command stat /m -> stat number 8 kind file mode 0644 links 1 size 65544
command chmod /c 0644 -> err ENOENT
command get /e 6 0 -> data -
command pwrite 2 5000 4b3ef3 -> wrote 3
command get /l 0 65537 -> err EINVAL
command snap take s23 -> err SNAPEXISTS
command in s32 list /c -> err ENOENT
command write 1 {33*120000} -> wrote 60000
command open /g rwta -> fd 3
command close 0 -> ok
command pwrite 3 71303168 {39*8192} -> wrote 4096
command fsync 1 -> ok
command write 3 {32*256} -> wrote 128
command df -> blocks 128 free 93 pledged 20
command link /l/a /h -> err EPERM
command rename /d /e/c -> err ENOENT
command sync -> ok
command read 32 65536 -> err EBADF
command pwrite 1 129 {32*40} -> wrote 20
command sync -> ok
command link /b /e -> err EEXIST
command link /h /a -> err EPERM
command unlink /d -> err ENOENT
command snap take s12 -> ok
command get /e 128 9 -> data {30*18}
command rmdir /d -> err ENOENT
command read 1 0 -> err EBADF
command write 1 {32*258} -> wrote 129
command write 3 f8b1 -> wrote 2
command write 2 {35*20000} -> wrote 10000
command rename /i /d -> ok
command close 1 -> ok
command close 2 -> ok
command close 3 -> ok
command snap restore s6 -> err NOSNAP
command open /a/b/a rwca 7777 -> err ENOENT
command open /b rwc 0444 -> fd 0
command mkdir / -> err EEXIST
command fstat 0 -> stat number 5 kind file mode 0644 links 1 size 4222
command pwrite 0 100 {33*400} -> wrote 200
command in s12 get /c 0 1 -> err ENOENT
command write 0 266df2ee343f44 -> wrote 7
command df -> blocks 128 free 70 pledged 16
command pwrite 0 8193 {37*10000} -> wrote 5000
command lstat /d/d -> err ENOTDIR
command write 0 {38*10000} -> wrote 5000
command rename /b /m -> ok
command write 0 {32*120000} -> wrote 60000
command link /w /a -> err EPERM
command read 0 9 -> data -
command in s8 stat /a -> err NOSNAP
command pwrite 0 5000 eb48613c7d8b96d3 -> wrote 8
command snap take s17 -> ok
command read 0 65536 -> data -
command pwrite 0 0 {33*20000} -> wrote 10000
command open /u rwc -> err EISDIR
command snap take s4 -> ok
command in s32 truncate /d 8191 -> err EROFS
command fsync 0 -> ok
command in s12 readlink /e -> err EINVAL
command read 0 0 -> data -
command in s12 readlink /b -> err EINVAL
command close 0 -> ok
command list /a -> err ENOENT
command open /a rw 0444 -> err ENOENT
command stat /e -> stat number 18 kind file mode 0000 links 1 size 67118863
command rmdir /v -> err ENOTDIR
command snap take s32 -> err SNAPEXISTS
command open /%00 wc 0444 -> err EINVAL
command open /b rwc 0444 -> fd 0
command readlink /c -> err ENOENT
command pwrite 0 135 0bf085bbbf17 -> wrote 6
command write 0 {38*256} -> wrote 128
command pwrite 0 100 6687ef921fd4 -> wrote 6
command in s12 mkdir /e 0600 -> err EROFS
command write 0 {33*40} -> wrote 20
command write 0 {37*10000} -> wrote 5000
command open /d wc 7777 -> fd 1
command snap take s0 -> ok
command in s12 list /c -> err ENOENT
command write 1 {34*8194} -> wrote 4097
command in s0 get /c 1 1 -> err ENOENT
command in s17 get /l/a 128 3 -> err EISDIR
command rename /e /b/.. -> err EINVAL
command sync -> ok
command lstat /w -> stat number 15 kind link mode 0777 links 1 size 2
command write 0 {33*8194} -> wrote 4097
command stat /c/e -> err ENOENT
command write 1 {33*131072} -> err ENOSPC
command write 0 10f30d1ef1172e -> wrote 7
command sync -> ok
command symlink d/e /e -> err EEXIST
command pwrite 1 4294967297 {39*200} -> wrote 100
command read 1 3 -> err EBADF
command pwrite 1 8193 {39*131074} -> err EINVAL
command rename /h /l/a -> err EISDIR
command lseek 0 set 1 -> at 1
command open /b/.. wc 7777 -> err ENOTDIR
command symlink % /e/c -> err ENOENT
command open /l rca 0000 -> err EISDIR
command close 0 -> ok
command close 1 -> ok
command snap restore s4 -> ok
command snap take s4 -> err SNAPEXISTS
command open /e rwc 0444 -> fd 0
command in % readlink /nnnnnnnnnnnnnnnnnnnnnnnnnnnnnnnnnnnnnnnnnnnnnnnnnnnnnnnnnnnnnnnnnnnnnnnnnnnnnnnnnnnnnnnnnnnnnnnnnnnnnnnnnnnnnnnnnnnnnnnnnnnnnnnnnnnnnnnnnnnnnnnnnnnnnnnnnnnnnnnnnnnnnnnnnnnnnnnnnnnnnnnnnnnnnnnnnnnnnnnnnnnnnnnnnnnnnnnnnnnnnnnnnnnnnnnnnnnnnnnnnnnnnnnnnnnnnnnn -> err NOSNAP
command close 0 -> ok
command snap restore s17 -> ok
command in s23 get /j 200 9 -> err EISDIR
command snap delete s0 -> ok
command open /m rwc 0444 -> fd 0
command df -> blocks 128 free 45 pledged 0
command open /c/c rwc -> err ENOENT
command rename /l/a /x -> ok
command stat /w -> stat number 3 kind dir mode 0755 links 1 size 0
command get / 200 1 -> err EISDIR
command pread 0 100 200 -> data {38*400}
command read 0 3 -> data 266df2
command in s23 get /e -9223372036854775808 5000 -> err EINVAL
command unlink /o -> ok
command lseek 0 end 9223372036854775807 -> err EOVERFLOW
command open /b rwc 0600 -> err ENOSPC
command read 0 0 -> data -
command snap take s22 -> ok
command lseek 0 set 8192 -> at 8192
command write 0 7671 -> wrote 2
command ftruncate 0 127 -> ok
command pwrite 0 4095 525d80 -> wrote 3
command df -> blocks 128 free 41 pledged 10
command truncate /. 0 -> err EISDIR
command open /j rc 0444 -> err EISDIR
command get /e 0 0 -> data -
command get /d 2 9 -> data -
command sync -> ok
command write 0 {34*8194} -> wrote 4097
command unlink /a -> err ENOENT
command snap take s29 -> ok
command lstat /x -> stat number 7 kind dir mode 0600 links 1 size 0
command fstat 0 -> stat number 5 kind file mode 0644 links 1 size 12291
command snap take s26 -> ok
command df -> blocks 128 free 31 pledged 0
command mkdir /c -> err ENOSPC
command in s22 readlink /b -> err ENOENT
command open /d/c rwc -> err ENOTDIR
command snap take s17 -> err SNAPEXISTS
command rmdir /e/b/e -> err ENOTDIR
command open /u wca 0000 -> err EISDIR
command ftruncate 0 4097 -> ok
command get /a 3 3 -> err ENOENT
command lstat /m -> stat number 5 kind file mode 0644 links 1 size 4097
command lseek 0 end 0 -> at 4097
command df -> blocks 128 free 31 pledged 6
command sync -> ok
command pwrite 0 128 911de6 -> wrote 3
command df -> blocks 128 free 30 pledged 8
command close 0 -> ok
command snap restore s23 -> ok
command open /d rwca -> err ENOSPC
command truncate /e 4096 -> err ENOENT
command readlink /d -> err ENOENT
command open /d/b rwca -> err ENOENT
command rmdir /e/c/e -> err ENOENT
command readlink /u -> err EINVAL
command open /c rwc 0000 -> err ENOSPC
command open /l/a rwca -> err EISDIR
command open /b rwc 7777 -> fd 0
command ftruncate 0 4095 -> ok
command unlink /m -> ok
command pwrite 0 130 {35*258} -> wrote 129
command get /c/e 130 0 -> err ENOENT
command ftruncate 0 1 -> ok
command close 0 -> ok
command open /b wc 7777 -> fd 0
command truncate /b 69999 -> ok
command truncate /b/c 100 -> err ENOTDIR
command snap take s9 -> ok
command in s25 get /d 200 9 -> err NOSNAP
command pread 0 128 9 -> err EBADF
command fsync 0 -> ok
command readlink /b -> err EINVAL
command ftruncate 0 0 -> ok
command link /a /l/a -> err ENOENT
command df -> blocks 128 free 25 pledged 6
command rmdir /v -> err ENOTDIR
command ftruncate 0 2 -> err ENOSPC
command write 0 9acf0b4c948dff8e -> err ENOSPC
command pwrite 0 129 4c1ea0 -> err ENOSPC
command pwrite 0 129 d21d -> err ENOSPC
command open /a rwcx -> err ENOSPC
command sync -> ok
command read 0 0 -> err EBADF
command df -> blocks 128 free 25 pledged 0
command ftruncate 0 8192 -> err ENOSPC
command unlink /b -> err ENOSPC
command rename /c/c/b /l -> err ENOENT
command open /w rc 0000 -> err EISDIR
command write 0 0dab21f3e72c97 -> err ENOSPC
command stat /u -> stat number 14 kind dir mode 0000 links 1 size 0
command sync -> ok
command snap take s0 -> ok
command snap delete s29 -> ok
command snap list -> snaps s23 s32 s12 s17 s4 s22 s26 s9 s0
command in s17 readlink /y/g -> err ENOENT
command open /l/a rw -> err EISDIR
command write 0 1edc5c8a -> err ENOSPC
command open /x rwc 0600 -> err ENOSPC
command open /h rwc -> fd 1
command pwrite 1 4097 {32*400} -> err ENOSPC
command write 0 fb -> err ENOSPC
command open /z/f/f rwct -> err ENOENT
command mkdir /j/t -> err ENOSPC
command snap list -> snaps s23 s32 s12 s17 s4 s22 s26 s9 s0
command read 0 65536 -> err EBADF
command snap take s16 -> ok
command open /p rwc -> err ENOSPC
command open /c rwt 0600 -> err ENOENT
command close 0 -> ok
command close 1 -> ok
command snap restore s32 -> ok
command sync -> ok
command open /b wc 0000 -> fd 0
command df -> blocks 128 free 22 pledged 0
command in s16 mkdir /h -> err EROFS
command write 0 {32*256} -> err ENOSPC
command open /l/n rw -> err ENOENT
command df -> blocks 128 free 22 pledged 0
command mkdir /w 7777 -> err EEXIST
command snap list -> snaps s23 s32 s12 s17 s4 s22 s26 s9 s0 s16
command rmdir /k -> err ENOENT
command pwrite 0 68719476741 e406e78c224ecd -> err EFBIG
command pread 0 0 65537 -> err EBADF
command open /l/u rct -> err EINVAL
command mkdir /r 0000 -> err ENOSPC
command mkdir /a/n 7777 -> err ENOENT
command open /k rwc -> err ENOSPC
command link /t /s -> err ENOENT
command rename /a /e -> err ENOENT
command open /d rw 0444 -> err ENOENT
command write 0 094c6d7c69d98afa -> err ENOSPC
command fstat 0 -> stat number 5 kind file mode 0644 links 1 size 4222
command open / rwca -> err EISDIR
command snap delete s9 -> ok
command open /i rwc 0444 -> fd 1
command open /j wca -> err EISDIR
command pwrite 1 -1 eb3372 -> err EINVAL
command snap restore s0 -> err EBUSY
command rmdir /s -> err ENOSPC
command write 0 {39*40} -> err ENOSPC
command symlink xxxxxxxxxxxxxxxxxxxxxxxxxxxxxxxxxxxxxxxxxxxxxxxxxxxxxxxxxxxxxxxxxxxxxxxxxxxxxxxxxxxxxxxxxxxxxxxxxxxxxxxxxxxxxxxxxxxxxxxxxxxxxxxxxxxxxxxxxxxxxxxxxxxxxxxxxxxxxxxxxxxxxxxxxxxxxxxxxxxxxxxxxxxxxxxxxxxxxxxxxxxxxxxxxxxxxxxxxxxxxxxxxxxxxxxxxxxxxxxxxxxxxxxxxxxxxxxx /f -> err ENOSPC
command snap take s32 -> err SNAPEXISTS
command open /i rc 7777 -> fd 2
command write 1 {32*8192} -> err ENOSPC
command ftruncate 1 1 -> ok
command chmod /z 7777 -> err ENOENT
command symlink a/../b /n -> err ENOSPC
command mkdir /d 0000 -> err ENOSPC
command snap delete s17 -> ok
command read 0 3 -> err EBADF
command symlink ../c /z -> err ENOSPC
command rename /y /u -> err ENOENT
command lstat /t -> err ENOENT
command mkdir / 7777 -> err EEXIST
command readlink /c -> err ENOENT
command rmdir /w -> err ENOTDIR
command mkdir /t 0600 -> err ENOSPC
command rmdir /l -> err ENOTEMPTY
command list /d -> err ENOENT
command link /q /v/r -> err ENOENT
command open /y rw -> err ENOENT
command open /x/b rwc -> err ENOENT
command sync -> ok
command in s12 truncate /o 8193 -> err EROFS
command snap take s32 -> err SNAPEXISTS
command pread 1 130 5000 -> data -
command lseek 0 end 128 -> at 4350
command symlink ././././././././././././././././././././././././././././././././././././././././././././././././././././././././././././././././././././././b /o -> err ENOSPC
command snap take s9 -> ok
command write 2 {33*8192} -> err EBADF
command symlink ////////////////////////////////////////////////////////////////////////////////////////////////////////////////////////////////////////////////////////////////////////////////////////////////////////c /r -> err ENOSPC
command open /u rwc 0000 -> err EISDIR
command fstat 2 -> stat number 10 kind file mode 0644 links 1 size 1
command pwrite 1 4096 {33*258} -> err ENOSPC
command symlink a /p/b/s -> err ENOENT
command ftruncate 1 2 -> ok
command open /r rwca -> err ENOSPC
command snap take s10 -> ok
command in s9 readlink /q -> err ENOENT
command snap delete s26 -> ok
command stat /e -> err ENOENT
command list /i -> err ENOTDIR
command ftruncate 0 100 -> ok
command open % rwt 0000 -> err ENOENT
command read 0 65537 -> err EBADF
command truncate /e 8193 -> err ENOENT
command link /q/v /x -> err ENOENT
command mkdir /b -> err EEXIST
command rename /b/b/c /e -> err ENOTDIR
command pwrite 0 129 dc9b0f3cda3d -> wrote 6
command df -> blocks 128 free 31 pledged 8
command write 0 {38*120000} -> err ENOSPC
command in s16 mkdir /d/b -> err EROFS
command write 0 - -> wrote 0
command in s10 list /c -> err ENOENT
command pread 1 128 5000 -> data -
command readlink /d/d -> err ENOENT
command rename /d /s -> err ENOENT
command read 0 1 -> err EBADF
command pwrite 32 67108865 {32*40} -> err EBADF
command pwrite 2 9223372036854775807 {38*20000} -> err EBADF
command open //a w 0000 -> err ENOENT
command open /b wt 0600 -> fd 3
command rmdir /i -> err ENOTDIR
command write 1 {31*131072} -> err ENOSPC
command snap take s4 -> err SNAPEXISTS
command pwrite 0 130 {32*20000} -> err ENOSPC
command df -> blocks 128 free 31 pledged 0
command fsync 0 -> ok
command lseek 31 end -1 -> err EBADF
command open /j rt -> err EINVAL
command snap delete s12 -> ok
command unlink /d -> err ENOENT
command pwrite 1 4094 {31*8192} -> wrote 4096
command fstat 1 -> stat number 10 kind file mode 0644 links 1 size 8190
command sync -> ok
command rename /h /d -> ok
command write 1 - -> wrote 0
command lseek 3 end -100 -> err EINVAL
command sync -> ok
command write 0 {31*131072} -> err ENOSPC
command rmdir /i -> err ENOTDIR
command rmdir // -> err EINVAL
command list /b -> err ENOTDIR
command sync -> ok
command df -> blocks 128 free 54 pledged 0
command in s22 mkdir /w 7777 -> err EROFS
command pwrite 3 4102 ad0eb1b58b1222cb -> wrote 8
command pwrite 1 128 {34*131072} -> err ENOSPC
command write 2 - -> err EBADF
command close 1 -> ok
command rmdir /l -> err ENOTEMPTY
command pwrite 3 129 {38*131074} -> err EINVAL
command write 2 {37*258} -> err EBADF
command in s15 mkdir /d/e 0444 -> err NOSNAP
command ftruncate 3 67108869 -> ok
command fstat 2 -> stat number 10 kind file mode 0644 links 1 size 8190
command open /v rca 7777 -> fd 1
command sync -> ok
command write 3 {33*8192} -> wrote 4096
command write 0 {36*131072} -> err ENOSPC
command write 2 {35*20000} -> err EBADF
command ftruncate 0 3 -> ok
command sync -> ok
command get /d 70001 0 -> data -
command in s16 truncate /j 129 -> err EROFS
command rmdir /v -> err ENOTDIR
command write 2 {39*20000} -> err EBADF
command symlink .. /l -> err EEXIST
command mkdir /e 7777 -> ok
command snap restore s28 -> err NOSNAP
command open /d rwc 0444 -> fd 4
command in s8 list /c -> err NOSNAP
command lseek 4 cur 100 -> at 100
command write 0 {36*131072} -> err ENOSPC
command pwrite 1 4294967301 {38*10000} -> err EBADF
command pwrite 3 70000 {35*131072} -> err ENOSPC
command write 4 {39*256} -> wrote 128
command pwrite 2 4097 a5 -> err EBADF
command write 0 {36*120000} -> err ENOSPC
command write 2 365d -> err EBADF
command rename /b /d -> ok
command pwrite 3 1 {35*8192} -> wrote 4096
command write 2 {39*131072} -> err EBADF
command pwrite 1 1 {36*120000} -> err EBADF
command sync -> ok
command snap take % -> err BADNAME
command open /l/a rwc -> err EISDIR
command open /e rw 0600 -> err EISDIR
command pwrite 1 130 {39*20000} -> err EBADF
command link /d /e -> err EEXIST
command write 3 {36*400} -> wrote 200
command stat /v -> stat number 9 kind file mode 0644 links 1 size 0
command lseek 4 set 1 -> at 1
command pwrite 2 68719476736 {34*8194} -> err EBADF
command pwrite 4 127 {39*256} -> wrote 128
command symlink /b /g -> err EEXIST
command in s28 get % 2 200 -> err NOSNAP
command lstat /d -> stat number 5 kind file mode 0644 links 1 size 4296
command write 1 - -> err EBADF
command snap take s24 -> ok
command pwrite 4 100 - -> wrote 0
command link /l /u -> err EPERM
command pwrite 0 8193 {39*8194} -> wrote 4097
command read 2 65537 -> err EINVAL
command write 2 {38*20000} -> err EBADF
command open /d/a/d rwcx -> err ENOTDIR
command snap take s13 -> ok
command symlink % /w -> err ENOENT
command pread 1 200 3 -> data -
command unlink /c -> err ENOENT
command pwrite 1 2 {37*258} -> err EBADF
command rename /a/c/c /d -> err ENOENT
command ftruncate 2 0 -> err EINVAL
command pwrite 2 4101 {33*20000} -> err EBADF
command snap take a/b -> err BADNAME
command snap take s30 -> ok
command rename /l /s -> err ENOSPC
command pwrite 4 4611686018427387904 ecb7 -> err EFBIG
command rename /e/b /b/c -> err ENOENT
command stat /c/a -> err ENOENT
command pread 0 130 9 -> err EBADF
command in s16 get /d 130 5000 -> err ENOENT
command unlink /l/a -> err EPERM
command link /b /c -> err ENOENT
command open /d wc 0000 -> fd 5
command pwrite 2 127 0103c729c3 -> err EBADF
command snap delete s10 -> ok
command lstat /u -> stat number 14 kind dir mode 0000 links 1 size 0
command link /d /d -> err EEXIST
command df -> blocks 128 free 44 pledged 0
command df -> blocks 128 free 44 pledged 0
command unlink /w -> ok
command fstat 1 -> stat number 9 kind file mode 0644 links 1 size 0
command pread 5 128 0 -> err EBADF
command link /i /a -> err ENOSPC
command lseek 5 cur 8192 -> at 8192
command lseek 1 end 0 -> at 0
command fstat 0 -> stat number 5 kind file mode 0644 links 1 size 12290
command in s24 readlink /a/a -> err ENOENT
command snap take s0 -> err SNAPEXISTS
command open /c rwa -> err ENOENT
command list /e/c/d -> err ENOENT
command lseek 31 cur 8192 -> err EBADF
command in s16 truncate /a/d 4097 -> err EROFS
command get /e 200 65537 -> err EINVAL
command stat /g -> stat number 12 kind file mode 0444 links 1 size 0
command readlink /a -> err ENOENT
command pwrite 1 100 {38*8194} -> err EBADF
command stat /m -> stat number 8 kind file mode 0644 links 1 size 8
command open /. rwta -> err EISDIR
command symlink % /e -> err ENOENT
command unlink /s -> err EPERM
command snap list -> snaps s23 s32 s4 s22 s0 s16 s9 s24 s13 s30
command open /e/e wc 0000 -> err ENOSPC
command pwrite 5 130 {36*200} -> wrote 100
command rmdir /a/a -> err ENOENT
command rename /m /d/b/b -> err ENOTDIR
command mkdir / 0000 -> err EEXIST
command open /b/.. wc -> err ENOENT
command pwrite 33 68719476737 0a23601e5d -> err EBADF
command lseek 33 set 9223372036854775807 -> err EBADF
command fsync 5 -> ok
command in s22 list /a -> err ENOENT
command in s32 get /e 2 1 -> err ENOENT
command pread 32 8191 65537 -> err EBADF
command fstat 1 -> stat number 9 kind file mode 0644 links 1 size 0
command in s23 stat /l/a -> stat number 7 kind dir mode 0600 links 1 size 0
command stat /b/e -> err ENOENT
command lseek 5 set 9223372036854775807 -> at 9223372036854775807
command mkdir /e 0000 -> err EEXIST
command sync -> ok
command pwrite 2 3 {39*20000} -> err EBADF
command list /d/a -> err ENOTDIR
command read 5 3 -> err EBADF
command ftruncate 2 4294967295 -> err EINVAL
command list /m -> err ENOTDIR
command pwrite 1 3 f7360c60653d -> err EBADF
command unlink /s -> err EPERM
command ftruncate 1 4299161601 -> err EINVAL
command open /e rwca -> err EISDIR
command fstat 5 -> stat number 5 kind file mode 0644 links 1 size 12290
command write 1 c720faba11 -> err EBADF
command ftruncate 2 4096 -> err EINVAL
command pwrite 0 71303167 {38*120000} -> err ENOSPC
command mkdir /g -> err EEXIST
command mkdir /c 7777 -> err ENOSPC
command pwrite 5 0 {35*200} -> wrote 100
command snap delete s30 -> ok
command close 0 -> ok
command close 1 -> ok
command close 2 -> ok
command close 3 -> ok
command close 4 -> ok
command close 5 -> ok
command snap restore s4 -> ok
command symlink . /a/c/b -> err ENOENT
command open /e/e/c rwc 0444 -> err ENOTDIR
command readlink /.. -> err EINVAL
command stat /d/d/b -> err ENOTDIR
command snap delete s24 -> ok
command truncate /b 127 -> err ENOENT
command lstat /d -> stat number 10 kind file mode 0644 links 1 size 0
command close 31 -> err EBADF
command pwrite 2 0 {38*258} -> err EBADF
command lseek 31 end 9223372036854775807 -> err EBADF
command link /w /h -> err EPERM
command in s22 stat /u -> stat number 14 kind dir mode 0000 links 1 size 0
command open /%00 rwc -> err EINVAL
command stat /j -> stat number 4 kind dir mode 0000 links 1 size 0
command snap take s0 -> err SNAPEXISTS
command in % stat /z -> err NOSNAP
command open /u/s rwc 7777 -> fd 0
command mkdir /r 0600 -> ok
command truncate /q 4194304 -> err ENOENT
command snap delete s23 -> ok
command snap take s21 -> ok
command open /c/b rwct -> err ENOENT
command truncate /m 128 -> ok
command get /u 71303168 1 -> err EISDIR
command sync -> ok
command open /q rc 0444 -> fd 1
command in s24 truncate /w 4095 -> err NOSNAP
command open /r rc -> err EISDIR
command open /a/. ra 0000 -> err ENOENT
command open /k/x rt -> err EINVAL
command lseek 0 end 129 -> at 129
command read 1 65536 -> data -
command mkdir /u 0000 -> err EEXIST
command open /r/b rwct 0000 -> fd 2
command get /i 8192 9 -> err ENOENT
command rmdir /s -> ok
command in s4 list /e/g -> err ENOTDIR
command open /v wcx 7777 -> err EEXIST
command pread 0 127 200 -> data -
command mkdir /x/z/b 0600 -> err ENOENT
command pread 2 130 1 -> data -
command df -> blocks 128 free 45 pledged 24
command symlink /b //a -> ok
command open /w rwc 0000 -> err EISDIR
command open /o rwc 0444 -> err ENOTDIR
command sync -> ok
command mkdir /w 7777 -> err EEXIST
command in s25 get /j 4294967295 5000 -> err NOSNAP
command in s32 mkdir /a/v/s 0000 -> err EROFS
command list /f -> err ENOENT
command write 2 fe640913 -> wrote 4
command snap take s31 -> ok
command write 0 {33*8192} -> wrote 4096
command rename /q /z -> err ENOSPC
command list /r -> names b
command get /m/k 1 65537 -> err EINVAL
command snap delete s21 -> ok
command pread 2 4096 9 -> data -
command lseek 1 end -100 -> err EINVAL
command close 0 -> ok
command close 1 -> ok
command close 2 -> ok
command snap restore s13 -> ok
command symlink % /m -> err ENOENT
command mkdir /.. 0444 -> err EINVAL
command open /e/a rw 0444 -> err ENOENT
command symlink .. /. -> err EINVAL
command open /v/a/w wc 0000 -> err ENOTDIR
command get /u/s/v 4096 9 -> err ENOENT
command mkdir /i/z 0600 -> err ENOTDIR
command in s31 get /a 68719476740 200 -> err ENOENT
command open /w rw -> err EISDIR
command mkdir /.. 0000 -> err EINVAL
command in s32 mkdir /s -> err EROFS
command mkdir /q -> ok
command in s22 list /q/e -> err ENOENT
command snap take s23 -> ok
command link /c/x/r /y -> err ENOENT
command in s0 truncate /v 8191 -> err EROFS
command rmdir /u -> ok
command open /d/w/u r 0600 -> err ENOTDIR
command in s0 truncate /x 5000 -> err EROFS
command mkdir / -> err EEXIST
command truncate /v/n/e 68719476735 -> err ENOTDIR
command symlink d/e /b/i/k -> err ENOENT
command mkdir /x -> err ENOSPC
command mkdir /k/j -> err ENOENT
command open /s rwc 0600 -> err EISDIR
command open /q rw 0000 -> err EISDIR
command in s32 get /x/b 129 5000 -> err ENOENT
command link /x/q /l/o -> err ENOENT
command snap take s2 -> ok
command mkdir /c -> err ENOSPC
command open /d/g rw 7777 -> err ENOTDIR
command lstat /d/u -> err ENOTDIR
command mkdir /h 0600 -> err ENOSPC
command open /d rwc 0600 -> fd 0
command fstat 0 -> stat number 5 kind file mode 0644 links 1 size 12290
command symlink . /j -> err EEXIST
command in s7 readlink /s/z -> err NOSNAP
command ftruncate 0 128 -> ok
command rename /b/d /r -> err ENOENT
command pread 0 100 200 -> data {35*54}99
command rename /v/i /o/d -> err ENOTDIR
command rename /p/t/z /t -> err ENOENT
command in s0 truncate /r 128 -> err EROFS
command open /b rwc 0000 -> err ENOSPC
command close 0 -> ok
command open /k wca -> err ENOSPC
command get /i 2 0 -> data -
command symlink /b /q -> err EEXIST
command open /t wc -> err ENOSPC
command readlink /b -> err ENOENT
command rename /a/d/e /e -> err ENOENT
command snap restore s4 -> ok
command in s16 get /l 200 200 -> err EISDIR
command write 4294967295 91d88810c08ad3 -> err EBADF
command open /d rw -> fd 0
command snap take s0 -> err SNAPEXISTS
command write 33 {32*120000} -> err EBADF
command readlink /v -> err EINVAL
command lseek 0 end 127 -> at 127
command write 4294967295 {35*10000} -> err EBADF
command list /b -> err ENOENT
command lstat /a -> err ENOENT
command df -> blocks 128 free 38 pledged 0
command pwrite 0 4097 {37*131072} -> err ENOSPC
command close 0 -> ok
command snap restore s6 -> err NOSNAP
command open /u rwca -> err EISDIR
command link /v /b -> err ENOSPC
command snap take s15 -> ok
command open /a wc -> err ENOSPC
command sync -> ok
command open /c/a/b wc -> err ENOENT
command open /s rw 0000 -> err EISDIR
command in s32 get /i 100 0 -> data -
command get /a 8192 65537 -> err EINVAL
command snap take s4 -> err SNAPEXISTS
command write 4294967295 {37*258} -> err EBADF
command rename /c/b /a -> err ENOENT
command open /d rw 0000 -> fd 0
command sync -> ok
command pwrite 0 8191 {38*120000} -> err ENOSPC
command read 0 1 -> data -
command pwrite 0 0 9aaa16e8 -> wrote 4
command lseek 0 end 8193 -> at 8197
command write 0 {31*256} -> wrote 128
command rmdir /l/a -> ok
command write 0 {39*120000} -> err ENOSPC
command write 0 {39*131072} -> err ENOSPC
command write 0 {34*10000} -> wrote 5000
command fstat 0 -> stat number 10 kind file mode 0644 links 1 size 13325
command sync -> ok
command write 4294967295 {39*8192} -> err EBADF
command write 0 dccf41497d459739 -> wrote 8
command truncate /b/b -1 -> err EINVAL
command in s2 mkdir /j -> err EROFS
command pread 0 4194304 9 -> data -
command pwrite 0 129 {35*256} -> wrote 128
command write 0 {36*8192} -> wrote 4096
command sync -> ok
command write 0 {34*131072} -> err ENOSPC
command symlink xxxxxxxxxxxxxxxxxxxxxxxxxxxxxxxxxxxxxxxxxxxxxxxxxxxxxxxxxxxxxxxxxxxxxxxxxxxxxxxxxxxxxxxxxxxxxxxxxxxxxxxxxxxxxxxxxxxxxxxxxxxxxxxxxxxxxxxxxxxxxxxxxxxxxxxxxxxxxxxxxxxxxxxxxxxxxxxxxxxxxxxxxxxxxxxxxxxxxxxxxxxxxxxxxxxxxxxxxxxxxxxxxxxxxxxxxxxxxxxxxxxxxxxxxxxxxxxx /c -> err ENOSPC
command write 0 {35*8192} -> wrote 4096
command write 0 {38*120000} -> err ENOSPC
command lseek 0 cur 9223372036854775807 -> err EOVERFLOW
command sync -> ok
command open /w rw -> err EISDIR
command link /l /h -> err EPERM
command pwrite 0 67108866 - -> wrote 0
command read 0 200 -> data -
command lseek 0 end 130 -> at 21655
command in s16 truncate a 3 -> err EROFS
command get /m 9223372036854775807 1 -> data -
command snap take s3 -> ok
command write 0 {38*20000} -> err ENOSPC
command readlink /d/e -> err ENOTDIR
command write 0 1aed7df4ac1c -> err ENOSPC
command fstat 0 -> stat number 10 kind file mode 0644 links 1 size 21525
command pread 0 4097 65537 -> err EINVAL
command in %20 get /d 4299161605 0 -> err NOSNAP
command pread 2 67108863 0 -> err EBADF
command stat /e -> stat number 18 kind file mode 0000 links 1 size 67118863
command mkdir /d/b 0000 -> err ENOTDIR
command pwrite 0 -9223372036854775808 {31*20000} -> err EINVAL
command fstat 0 -> stat number 10 kind file mode 0644 links 1 size 21525
command fsync 0 -> ok
command write 0 {39*131072} -> err ENOSPC
command pwrite 0 135 {39*120000} -> err ENOSPC
command stat /b/a -> err ENOENT
command snap take s18 -> ok
command open /.. rw 0000 -> err EISDIR
command lseek 0 cur 9223372036854775807 -> err EOVERFLOW
command write 0 {37*10000} -> err ENOSPC
command link /e /d -> err EEXIST
command stat /h -> err ENOENT
command stat /l -> stat number 6 kind dir mode 0755 links 1 size 0
command pwrite 0 4096 {33*120000} -> err ENOSPC
command open /d wc -> fd 1
command snap take s21 -> ok
command ftruncate 0 8191 -> ok
command pwrite 0 2 {35*20000} -> err ENOSPC
command in s4 lstat /a -> err ENOENT
command in s13 stat /d -> stat number 5 kind file mode 0644 links 1 size 12290
command in s4 get /w 68719476735 5000 -> err EISDIR
command open /e rwca -> fd 2
command in s13 lstat /d -> stat number 5 kind file mode 0644 links 1 size 12290
command in s4 get /e/c 5000 0 -> err ENOTDIR
command in s9 list /b -> err ENOTDIR
command open /a rca -> err ENOSPC
command symlink /b /g -> err EEXIST
command rename /e /a -> err ENOSPC
command get /x 2 200 -> err EISDIR
command open /c wc -> err ENOSPC
command open /d wca 7777 -> fd 3
command pwrite 3 200 {36*8192} -> err ENOSPC
command pwrite 1 130 8ea3e7f8fbec7115 -> err ENOSPC
command mkdir /d 0000 -> err EEXIST
command open /a/ rwc 0600 -> err EINVAL
command open /m rwcx 0444 -> err EEXIST
command close 1 -> ok
command in s27 truncate /a 69631 -> err NOSNAP
command write 0 ccc906 -> err ENOSPC
command ftruncate 0 128 -> ok
command write 0 ab -> err ENOSPC
command unlink /a -> err ENOENT
command unlink a -> err EINVAL
command rmdir /u -> err ENOSPC
command write 0 af8bc3e47e -> err ENOSPC
command rmdir /h -> err ENOTDIR
command unlink /a/c/b -> err ENOENT
command snap take nnnnnnnnnnnnnnnnnnnnnnnnnnnnnnnnnnnnnnnnnnnnnnnnnnnnnnnnnnnnnnnn -> err BADNAME
command fstat 0 -> stat number 10 kind file mode 0644 links 1 size 128
command write 0 {39*256} -> err ENOSPC
command read 2 1 -> data 00
command open /b rwc -> err ENOSPC
command snap take nnnnnnnnnnnnnnnnnnnnnnnnnnnnnnnnnnnnnnnnnnnnnnnnnnnnnnnnnnnnnnnn -> err BADNAME
command open /u wcx 7777 -> err EEXIST
command df -> blocks 128 free 21 pledged 0
command close 3 -> ok
command read 0 3 -> data -
command write 0 fc14cc39a03c95 -> err ENOSPC
command lstat /a -> err ENOENT
command rename /h /b -> err ENOSPC
command close 0 -> ok
command get /s 5000 200 -> err EISDIR
command unlink /a -> err ENOENT
command fstat 2 -> stat number 18 kind file mode 0000 links 1 size 67118863
command write 2 675ea7966509 -> err ENOSPC
command pwrite 2 100 244aaac9 -> err ENOSPC
command rename /h /.. -> err EINVAL
command ftruncate 2 4194305 -> ok
command link /e/e /c/c -> err ENOTDIR
command df -> blocks 128 free 21 pledged 6
command mkdir /d 0600 -> err EEXIST
command open /c/b/d wc -> err ENOENT
command lstat /e -> stat number 18 kind file mode 0000 links 1 size 4194305
command in s32 get /g 8193 0 -> data -
command write 2 {39*258} -> err ENOSPC
command snap take . -> ok
command lstat /c -> err ENOENT
command rename /. /o -> err EINVAL
command open /j r 0600 -> err EISDIR
command close 2 -> ok
command open /c rwc 0000 -> err ENOSPC
command open /u rwc 0444 -> err EISDIR
command open /s rw -> err EISDIR
command open /. rw -> err EISDIR
command snap take s23 -> err SNAPEXISTS
command open /l rwc 0000 -> err EISDIR
command symlink ././././././././././././././././././././././././././././././././././././././././././././././././././././././././././././././././././././././b /c -> err ENOSPC
command open /w rwc 7777 -> err EISDIR
command open /s rwc 7777 -> err EISDIR
command open /c rwc -> err ENOSPC
command rename /g /c/a/b -> err ENOENT
command open /v rw 0444 -> fd 0
command pread 0 8192 3 -> data -
command open /e rc 0444 -> fd 1
command get /b/e 0 9 -> err ENOENT
command snap take s7 -> ok
command in s10 get /a/b/c 65536 5000 -> err NOSNAP
command symlink ////////////////////////////////////////////////////////////////////////////////////////////////////////////////////////////////////////////////////////////////////////////////////////////////////////c /a -> err ENOSPC
command snap list -> snaps s32 s4 s22 s0 s16 s9 s13 s31 s23 s2 s15 s3 s18 s21 . s7
command mkdir /c 0000 -> err ENOSPC
command rename /o /m -> err ENOSPC
command pwrite 0 68719476734 74c41ba7 -> err EFBIG
command open /v rwca -> fd 2
command open /d rwc 7777 -> fd 3
command ftruncate 0 65537 -> err ENOSPC
command write 0 1943c3 -> err ENOSPC
command rmdir /e -> err ENOTDIR
command link /d/e/e /d/c -> err ENOTDIR
command sync -> ok
command close 3 -> ok
command write 0 {32*256} -> err ENOSPC
command link /l /a//b -> err EPERM
command ftruncate 2 101 -> err ENOSPC
command readlink /a -> err ENOENT
command rename /d /a/ -> err EINVAL
command close 1 -> ok
command lstat /w -> stat number 15 kind link mode 0777 links 1 size 2
command write 0 {38*8194} -> err ENOSPC
command df -> blocks 128 free 15 pledged 0
command in s9 truncate /d/c 0 -> err EROFS
command get /j 0 65537 -> err EINVAL
command close 0 -> ok
command sync -> ok
command in s22 mkdir /h -> err EROFS
command open /b rwa -> err ENOENT
command snap delete s21 -> ok
command unlink /d -> err ENOSPC
command ftruncate 2 205 -> err ENOSPC
command mkdir /c -> err ENOSPC
command stat /q -> err ENOENT
command list /e/t/l -> err ENOTDIR
command open /y/g rwc -> err ENOENT
command symlink .. /b/.. -> err EINVAL
command open /y rwc 7777 -> err ENOSPC
command in s15 mkdir /g -> err EROFS
command truncate /q/l/i 8193 -> err ENOENT
command snap take s20 -> ok
command link /e /g -> err EEXIST
command lstat /i -> err ENOENT
command symlink /b / -> err EEXIST
command rename /r/r /b/.. -> err EINVAL
command ftruncate 2 6 -> err ENOSPC
command open /w/b/k rwa -> err ENOENT
command rmdir /e -> err ENOTDIR
command symlink /b /u -> err EEXIST
command open /h rc 0600 -> err ENOSPC
command df -> blocks 128 free 15 pledged 0
command open /d rc -> fd 0
command snap take s31 -> err SNAPEXISTS
command snap take s16 -> err SNAPEXISTS
command mkdir /a/v/n -> err ENOENT
command sync -> ok
command pread 0 1 1 -> data aa
command mkdir /s -> err EEXIST
command rmdir /o -> err ENOTDIR
command open /j rwc 0000 -> err EISDIR
command open /m/e rw 7777 -> err ENOTDIR
command mkdir /r/o/y -> err ENOENT
command open /n wc 7777 -> err ENOSPC
command rmdir /d -> err ENOTDIR
command stat /e -> stat number 18 kind file mode 0000 links 1 size 4194305
command symlink .. /z/e -> err ENOENT
command df -> blocks 128 free 15 pledged 0
command mkdir /e 0000 -> err EEXIST
command mkdir /a/. -> err EINVAL
command read 0 9 -> data 9aaa16e80000000000
command sync -> ok
command snap take nnnnnnnnnnnnnnnnnnnnnnnnnnnnnnnnnnnnnnnnnnnnnnnnnnnnnnnnnnnnnnnn -> err BADNAME
command read 0 65536 -> data {30*238}
command lseek 0 end 0 -> at 128
command open /j rw 7777 -> err EISDIR
command open /g wc 0600 -> fd 1
command symlink .. /e/q -> err ENOTDIR
command rmdir /h -> err ENOTDIR
command read 0 0 -> data -
command stat /p -> err ENOENT
command fstat 3 -> err EBADF
command stat /w -> stat number 3 kind dir mode 0755 links 1 size 0
command truncate /g 200 -> ok
command open /z/f wc 0600 -> err ENOENT
command stat /u -> stat number 14 kind dir mode 0000 links 1 size 0
command mkdir /z 0000 -> err ENOSPC
command read 2 5000 -> data -
command open //a w 0444 -> err ENOENT
command mkdir /h 0600 -> err EEXIST
command list /j -> names
command ftruncate 1 4097 -> err ENOSPC
command write 1 {34*258} -> err ENOSPC
command mkdir /x/j/y 0600 -> err ENOENT
command truncate /e 67108870 -> err ENOSPC
command rmdir /t -> err ENOENT
command rename /i /f -> err ENOENT
command pwrite 2 -1 c14a18 -> err EINVAL
command write 2 {39*256} -> err ENOSPC
command open /o wc 0444 -> err ENOTDIR
command symlink ././././././././././././././././././././././././././././././././././././././././././././././././././././././././././././././././././././././b /g -> err EEXIST
command in s13 lstat /j/p -> err ENOENT
command close 0 -> ok
command close 1 -> ok
command close 2 -> ok
command snap restore s2 -> ok
command truncate /y 3 -> err ENOENT
command open /n rwc -> err ENOSPC
command mkdir /u 0000 -> err ENOSPC
command open /d/q/t rwca -> err ENOTDIR
command open /g rwc -> fd 0
command open /a wc 0000 -> err ENOSPC
command mkdir /f 0000 -> err ENOSPC
command fstat 0 -> stat number 12 kind file mode 0444 links 1 size 0
command get / 2 5000 -> err EISDIR
command in s7 truncate /w 8191 -> err EROFS
command pwrite 0 128 fe -> err ENOSPC
command open /l/x rwa 7777 -> err ENOENT
command in s13 get /m 67108866 200 -> data -
command lstat /q -> stat number 13 kind dir mode 0755 links 1 size 0
command in s13 get /b/z/t 4095 1 -> err ENOENT
command fstat 0 -> stat number 12 kind file mode 0444 links 1 size 0
command in s22 list /w -> names d e g h j l m s u v w x
command open /v/r wcta -> err ENOTDIR
command open /t rwcx -> err ENOSPC
command rmdir /k -> err ENOENT
command in s22 mkdir /x/n/v -> err EROFS
command open /g rw 7777 -> fd 1
command fsync 1 -> ok
command write 0 {32*8194} -> err ENOSPC
command rmdir /k/h -> err ENOENT
command rmdir /d -> err ENOTDIR
command mkdir /j 0000 -> err EEXIST
command write 0 894ac8f4bc27 -> err ENOSPC
command close 0 -> ok
command close 1 -> ok
command snap restore s16 -> ok
command open /s rwc -> err EISDIR
command open /a rwc -> err ENOSPC
command open /b rwc 7777 -> fd 0
command rename /a/ /l -> err EINVAL
command mkdir /a -> err ENOSPC
command pwrite 32 4097 e2b4129b36005e2c -> err EBADF
command pwrite 0 8191 83cda26d -> err ENOSPC
command pwrite 0 8191 {33*8194} -> err ENOSPC
command in s16 lstat /h -> stat number 13 kind link mode 0777 links 1 size 141
command rename /l/a /c/e -> err ENOENT
command sync -> ok
command lstat /d/d -> err ENOENT
command in s20 stat /a -> err ENOENT
command chmod /a/a 7777 -> err ENOENT
command df -> blocks 128 free 15 pledged 0
command write 0 {37*10000} -> err ENOSPC
command df -> blocks 128 free 15 pledged 0
command unlink /b/b -> err ENOTDIR
command pwrite 0 4096 {33*200} -> err ENOSPC
command rmdir /l/a -> err ENOSPC
command link /d /h -> err ENOENT
command symlink ////////////////////////////////////////////////////////////////////////////////////////////////////////////////////////////////////////////////////////////////////////////////////////////////////////c /u -> err EEXIST
command write 0 - -> wrote 0
command readlink /i -> err EINVAL
command pread 0 129 5000 -> data -
command write 0 - -> wrote 0
command in s20 readlink /b -> err ENOENT
command write 0 {35*131072} -> err ENOSPC
command in s31 truncate /x 4194309 -> err EROFS
command write 31 {39*20000} -> err EBADF
command pwrite 0 65534 {31*400} -> err ENOSPC
command pwrite 33 0 {34*120000} -> err EBADF
command rename /a/. /j -> err EINVAL
command rmdir /e/a/b -> err ENOENT
command lseek 0 end 0 -> at 0
command open / rct -> err EINVAL
command pwrite 0 8192 - -> wrote 0
command write 0 {38*120000} -> err ENOSPC
command snap take % -> err BADNAME
command close 0 -> ok
command snap restore s31 -> ok
command open /l/a rwc -> err EISDIR
command rename /c /b -> err ENOENT
command open /b wc -> err ENOSPC
command get /a 4097 1 -> err ENOENT
command open /b rw 0444 -> err ENOENT
command open /d rwc -> fd 0
command write 0 {34*40} -> err ENOSPC
command pwrite 0 128 {33*131072} -> err ENOSPC
command in s2 get /e/d 4095 0 -> err ENOENT
command get /b/a/c 128 3 -> err ENOENT
command write 0 {33*131074} -> err EINVAL
command stat /b -> err ENOENT
command write 4294967295 d7d6d0a4b586 -> err EBADF
command in s3 lstat /d -> stat number 10 kind file mode 0644 links 1 size 21525
command link /u /x -> err EPERM
command pwrite 0 127 {33*131072} -> err ENOSPC
command write 0 {37*131074} -> err EINVAL
command write 0 {38*258} -> err ENOSPC
command in . list /b -> err ENOENT
command write 0 {35*131074} -> err EINVAL
command open /r/b wc -> fd 1
command snap take % -> err BADNAME
command pwrite 2 130 {35*200} -> err EBADF
command in s0 list /c -> err ENOENT
command write 1 {32*8192} -> err ENOSPC
command fstat 2 -> err EBADF
command snap take s2 -> err SNAPEXISTS
command open /%00 wc -> err EINVAL
command write 0 {34*20000} -> err ENOSPC
command rename /d /b/e -> err ENOENT
command snap take s21 -> ok
command rename /e /u -> err EISDIR
command sync -> ok
command pwrite 1 4096 {32*131074} -> err EINVAL
command rename /c /d -> err ENOENT
command df -> blocks 128 free 12 pledged 0
command stat /u/s -> stat number 8 kind file mode 7777 links 1 size 0
command in s27 list /u/s -> err NOSNAP
command write 0 {36*131074} -> err EINVAL
command snap take s14 -> ok
command open /e rc 0444 -> fd 2
command sync -> ok
command unlink /d/e -> err ENOTDIR
command open /c rwc 7777 -> err ENOSPC
command write 0 7c -> err ENOSPC
command write 2 a0eba738 -> err EBADF
command read 2 0 -> data -
command in s15 list /h -> err ENOENT
command write 1 a724553ddc4ebc15 -> err ENOSPC
command lstat /u/s -> stat number 8 kind file mode 7777 links 1 size 0
command rmdir /l/a -> err ENOSPC
command write 2 {38*400} -> err EBADF
command write 2 {38*40} -> err EBADF
command close 0 -> ok
command open /q rwca 0000 -> fd 0
command unlink /c -> err ENOENT
command lseek 1 cur 100 -> at 100
command link /d /b -> err ENOSPC
command write 2 {37*10000} -> err EBADF
command snap take s9 -> err SNAPEXISTS
command open /o rwct -> err ENOTDIR
command mkdir /h 0000 -> err EEXIST
command mkdir /c 0000 -> err ENOSPC
command close 0 -> ok
command close 1 -> ok
command close 2 -> ok
command snap restore s22 -> err ENOSPC
command open /u rc 0600 -> err EISDIR
command open /d wc 0600 -> fd 0
command rmdir /h -> err ENOTDIR
command in s10 get /d 130 3 -> err NOSNAP
command in s21 get /b 65535 5000 -> err ENOENT
command lseek 0 end 129 -> at 129
command write 0 {31*8194} -> err ENOSPC
command open /d/c rwc -> err ENOTDIR
command snap take s29 -> err ENOSPC
command pwrite 0 8192 - -> wrote 0
command snap delete s4 -> ok
command close 0 -> ok
command open /a//b rwc -> err ENOENT
command open /e rwc 0000 -> fd 0
command unlink /o -> err ENOSPC
command open /a rwc 0000 -> err ENOSPC
command close 0 -> ok
command write 2 1faec44e -> err EBADF
command rename /w /e/e -> err ENOTDIR
command truncate /d 1 -> err ENOSPC
command open /a rwc 0000 -> err ENOSPC
command rename /a/. /b/d -> err EINVAL
command rename /a /e -> err ENOSPC
command open /c rwc -> err ENOSPC
command open /e rwc 0444 -> fd 0
command link /w /e -> err EPERM
command sync -> ok
command in . get /d 0 0 -> data -
command snap take s4 -> ok
command in s21 stat / -> stat number 3 kind dir mode 0755 links 1 size 0
command pwrite 0 4194308 3067 -> err ENOSPC
command pwrite 0 1 - -> wrote 0
command sync -> ok
command mkdir /e -> err EEXIST
command rmdir / -> err EBUSY
command lseek 0 set 0 -> at 0
command open /w rwc -> err EISDIR
command symlink .. /b -> err ENOSPC
command close 0 -> ok
command snap restore s31 -> err ENOSPC
command snap restore s2 -> err ENOSPC
command symlink /b a -> err EINVAL
command open /b wxt 7777 -> err EINVAL
command open /b/b rwc 0600 -> err ENOENT
command open /c/d/c wc -> err ENOENT
command open /h rwc 7777 -> err ENOSPC
command open /e wc -> fd 0
command fstat 0 -> stat number 18 kind file mode 0000 links 1 size 67118863
command open /u rwct 0444 -> err EISDIR
command in s9 stat / -> stat number 3 kind dir mode 0755 links 1 size 0
command rename /d /c/a -> err ENOENT
command fstat 0 -> stat number 18 kind file mode 0000 links 1 size 67118863
command pwrite 0 127 eaf50375e5 -> err ENOSPC
command read 0 9 -> err EBADF
command read 0 65537 -> err EBADF
command rename /c/e /a -> err ENOENT
command pwrite 0 0 {32*10000} -> err ENOSPC
command mkdir /d 0600 -> err EEXIST
command stat /a/d -> err ENOENT
command truncate /c/b 4095 -> err ENOENT
command readlink /c -> err ENOENT
command mkdir /e/a 0000 -> err ENOTDIR
command list /d/b/b -> err ENOTDIR
command fstat 0 -> stat number 18 kind file mode 0000 links 1 size 67118863
command read 0 0 -> err EBADF
command symlink d/e /b/e -> err ENOENT
command symlink ////////////////////////////////////////////////////////////////////////////////////////////////////////////////////////////////////////////////////////////////////////////////////////////////////////c /x -> err EEXIST
command sync -> ok
command open /e/d rwc 0444 -> err ENOTDIR
command pwrite 0 4096 {34*256} -> err ENOSPC
command open /. r -> err EISDIR
command lstat /e/d/c -> err ENOTDIR
command in s9 list /m -> err ENOTDIR
command in s20 truncate /u 0 -> err EROFS
command in s16 readlink /b -> err EINVAL
command unlink /o -> err ENOSPC
command open /a/. rc -> err ENOENT
command fsync 0 -> ok
command sync -> ok
command ftruncate 0 4096 -> err ENOSPC
command df -> blocks 128 free 9 pledged 0
command pwrite 0 127 {39*400} -> err ENOSPC
command truncate /a 2 -> err ENOENT
command unlink /a/d -> err ENOENT
command list /b -> err ENOENT
command get /c/e/e 8192 3 -> err ENOENT
command unlink /q -> err ENOSPC
command open /l rwc 0000 -> err EISDIR
command pwrite 0 128 {36*10000} -> err ENOSPC
command open /e/p/u rwcxa -> err ENOTDIR
command symlink % /nnnnnnnnnnnnnnnnnnnnnnnnnnnnnnnnnnnnnnnnnnnnnnnnnnnnnnnnnnnnnnnnnnnnnnnnnnnnnnnnnnnnnnnnnnnnnnnnnnnnnnnnnnnnnnnnnnnnnnnnnnnnnnnnnnnnnnnnnnnnnnnnnnnnnnnnnnnnnnnnnnnnnnnnnnnnnnnnnnnnnnnnnnnnnnnnnnnnnnnnnnnnnnnnnnnnnnnnnnnnnnnnnnnnnnnnnnnnnnnnnnnnnnnnnnnnnnnn -> err ENOENT
command write 0 {34*20000} -> err ENOSPC
command link /r /u/d -> err EPERM
command mkdir /z -> err ENOSPC
command open /h rct 0600 -> err EINVAL
command write 0 {37*20000} -> err ENOSPC
command in s3 get /p 130 1 -> err ENOENT
command mkdir /u/h 7777 -> err ENOSPC
command lseek 0 cur -100 -> err EINVAL
command rename /s/g /a -> err ENOENT
command open /j/x/k rc 7777 -> err ENOENT
command snap take s31 -> err SNAPEXISTS
command fsync 0 -> ok
command get /v 3 9 -> data -
command snap take s12 -> err ENOSPC
command snap restore s4 -> err EBUSY
command open /nnnnnnnnnnnnnnnnnnnnnnnnnnnnnnnnnnnnnnnnnnnnnnnnnnnnnnnnnnnnnnnnnnnnnnnnnnnnnnnnnnnnnnnnnnnnnnnnnnnnnnnnnnnnnnnnnnnnnnnnnnnnnnnnnnnnnnnnnnnnnnnnnnnnnnnnnnnnnnnnnnnnnnnnnnnnnnnnnnnnnnnnnnnnnnnnnnnnnnnnnnnnnnnnnnnnnnnnnnnnnnnnnnnnnnnnnnnnnnnnnnnnnnnnnnnnnnnn rwc 0000 -> err ENAMETOOLONG
command snap take s23 -> err SNAPEXISTS
command write 0 f77c877c -> err ENOSPC
command truncate /y/i/r 8191 -> err ENOENT
command snap list -> snaps s32 s22 s0 s16 s9 s13 s31 s23 s2 s15 s3 s18 . s7 s20 s21 s14 s4
command mkdir /h 0600 -> err EEXIST
command get /x 65535 5000 -> err EISDIR
command open /b/l rwc -> err ENOENT
command in s3 list //a -> err ENOENT
command open /r rwca 0600 -> err EISDIR
command mkdir /l/a -> err EEXIST
command mkdir /w -> err EEXIST
command snap take s22 -> err SNAPEXISTS
command read 0 65536 -> err EBADF
command symlink d/e /g -> err EEXIST
command symlink . /a/ -> err EINVAL
command open /q rwa -> fd 1
command write 0 - -> wrote 0
command write 1 0d -> err ENOSPC
command truncate /m 200 -> err ENOSPC
command link /n /o/y -> err ENOENT
command get /g 2 5000 -> data {30*254}{32*40}{30*9706}
command fsync 0 -> ok
command pwrite 0 127 {37*40} -> err ENOSPC
command lseek 0 set -100 -> err EINVAL
command open /f rwca -> err ENOSPC
command write 0 03a49a9c964b -> err ENOSPC
command snap take s9 -> err SNAPEXISTS
command open /q rwc -> fd 2
command write 1 {38*8192} -> err ENOSPC
command read 1 9 -> data -
command open /g wc 0600 -> fd 3
command mkdir /a 7777 -> err EEXIST
command symlink a/../b /d -> err EEXIST
command mkdir /u -> err EEXIST
command snap take s22 -> err SNAPEXISTS
command snap take s11 -> err ENOSPC
command mkdir /y/d 7777 -> err ENOENT
command open /j rw -> err EISDIR
command mkdir /h 0444 -> err EEXIST
command get /v/y 0 65537 -> err EINVAL
command mkdir /r/b 0000 -> err EEXIST
command chmod /r/h/j 0700 -> err ENOENT
command open /q wc 0000 -> fd 4
command get /z/j 8193 65537 -> err EINVAL
command rmdir /u -> err ENOTEMPTY
command fstat 4 -> stat number 20 kind file mode 0444 links 1 size 0
command sync -> ok
command rmdir /x -> err ENOSPC
command get /x 4194305 65537 -> err EINVAL
command mkdir /m 0600 -> err EEXIST
command write 2 f6ddbb0082 -> err ENOSPC
command write 4 {36*40} -> err ENOSPC
command fstat 0 -> stat number 18 kind file mode 0000 links 1 size 67118863
command link /j/m/o /x -> err ENOENT
command get /n 127 1 -> err ENOENT
command fsync 2 -> ok
command close 4 -> ok
command in . readlink /o -> text d/e
command open /k/g rw -> err ENOENT
command readlink /o -> text d/e
command open /h rca -> err ENOSPC
command mkdir /t 0000 -> err ENOSPC
command sync -> ok
command open /u rwc -> err EISDIR
command in s29 get /c/b 8192 200 -> err NOSNAP
command symlink ../c /n/w/a -> err ENOENT
command open /u rwc 0000 -> err EISDIR
command mkdir /j/j 0444 -> err ENOSPC
command snap take s16 -> err SNAPEXISTS
command in s3 get /r 2 5000 -> err ENOENT
command symlink .. /k/i -> err ENOENT
command pwrite 1 4096 6e -> err ENOSPC
command in s2 get /l/a 65537 1 -> err EISDIR
command truncate /o 4097 -> err ENOTDIR
command mkdir a -> err EINVAL
command read 32 65536 -> err EBADF
command df -> blocks 128 free 9 pledged 0
command rmdir /c/j -> err ENOENT
command get /k 8192 65537 -> err EINVAL
command open /o/d rwct -> err ENOTDIR
command stat /e -> stat number 18 kind file mode 0000 links 1 size 67118863
command pread 3 129 0 -> err EBADF
command open /e rca -> fd 4
command symlink xxxxxxxxxxxxxxxxxxxxxxxxxxxxxxxxxxxxxxxxxxxxxxxxxxxxxxxxxxxxxxxxxxxxxxxxxxxxxxxxxxxxxxxxxxxxxxxxxxxxxxxxxxxxxxxxxxxxxxxxxxxxxxxxxxxxxxxxxxxxxxxxxxxxxxxxxxxxxxxxxxxxxxxxxxxxxxxxxxxxxxxxxxxxxxxxxxxxxxxxxxxxxxxxxxxxxxxxxxxxxxxxxxxxxxxxxxxxxxxxxxxxxxxxxxxxxxxx /b -> err ENOSPC
command pwrite 3 100 a393660c90 -> err ENOSPC
command stat /q -> stat number 20 kind file mode 0444 links 1 size 0
command open /r rwc -> err EISDIR
command df -> blocks 128 free 9 pledged 0
command in s7 truncate /l 8193 -> err EROFS
command link /u /d -> err EPERM
command link /e/c/a /b -> err ENOTDIR
command pwrite 3 1 {32*258} -> err ENOSPC
command pread 1 1 5000 -> data -
command list /b -> err ENOENT
command snap list -> snaps s32 s22 s0 s16 s9 s13 s31 s23 s2 s15 s3 s18 . s7 s20 s21 s14 s4
command link /nnnnnnnnnnnnnnnnnnnnnnnnnnnnnnnnnnnnnnnnnnnnnnnnnnnnnnnnnnnnnnnnnnnnnnnnnnnnnnnnnnnnnnnnnnnnnnnnnnnnnnnnnnnnnnnnnnnnnnnnnnnnnnnnnnnnnnnnnnnnnnnnnnnnnnnnnnnnnnnnnnnnnnnnnnnnnnnnnnnnnnnnnnnnnnnnnnnnnnnnnnnnnnnnnnnnnnnnnnnnnnnnnnnnnnnnnnnnnnnnnnnnnnnnnnnnnnnn /e -> err ENAMETOOLONG
command truncate /c 128 -> err ENOENT
command snap take s21 -> err SNAPEXISTS
command in s4 truncate /o 3 -> err EROFS
command open /q rwa -> fd 5
command pwrite 2 128 {33*400} -> err ENOSPC
command fsync 2 -> ok
command open /c/c rw 0000 -> err ENOENT
command snap take s17 -> err ENOSPC
command fstat 4 -> stat number 18 kind file mode 0000 links 1 size 67118863
command open /c wca -> err ENOSPC
command lseek 3 cur 8192 -> at 8192
command get / 1 3 -> err EISDIR
command pwrite 4 4294967300 {31*131072} -> err EBADF
command pwrite 4 128 {35*131072} -> err EBADF
command write 0 {34*8194} -> err ENOSPC
command rename /a /b/d -> err ENOENT
command write 5 - -> wrote 0
command readlink /q -> err EINVAL
command sync -> ok
command read 3 65536 -> err EBADF
command stat /e/e -> err ENOTDIR
command close 0 -> ok
command close 1 -> ok
command close 2 -> ok
command close 3 -> ok
command close 4 -> ok
command close 5 -> ok
command snap restore s25 -> err NOSNAP
command open /m rwc 0600 -> fd 0
command write 0 {31*120000} -> err ENOSPC
command write 0 {36*258} -> err ENOSPC
command open /b/a wct 0444 -> err ENOENT
command write 0 {37*200} -> err ENOSPC
command write 0 {39*10000} -> err ENOSPC
command get /d/b 5000 3 -> err ENOTDIR
command truncate /r/b 100 -> err ENOSPC
command df -> blocks 128 free 9 pledged 0
command pwrite 0 65535 {33*131074} -> err EINVAL
command write 0 {31*131074} -> err EINVAL
command write 0 {36*131072} -> err ENOSPC
command symlink . /c -> err ENOSPC
command pwrite 0 9223372036854775807 {37*40} -> err EFBIG
command pread 0 3 9 -> data {33*18}
command lseek 0 set 4097 -> at 4097
command pwrite 0 2 fa41717008a970a4 -> err ENOSPC
command get /q 8193 200 -> data -
command close 0 -> ok
command snap restore s15 -> err ENOSPC
command open /r rwc 7777 -> err EISDIR
command snap take s5 -> err ENOSPC
command open /d rwct -> fd 0
command fstat 0 -> stat number 10 kind file mode 0644 links 1 size 0
command truncate /v 134 -> err ENOSPC
command readlink /a -> text /b
command in s2 truncate / 100 -> err EROFS
command truncate /u/s 4102 -> err ENOSPC
command write 0 {35*40} -> err ENOSPC
command open /l w 0000 -> err EISDIR
command mkdir /o -> err EEXIST
command lseek 0 cur -1 -> err EINVAL
command write 0 {33*200} -> err ENOSPC
command in s16 truncate /d/e 2 -> err EROFS
command write 0 {33*120000} -> err ENOSPC
command write 0 {39*400} -> err ENOSPC
command sync -> ok
command open /d rwct -> fd 1
command snap delete s5 -> err NOSNAP
command symlink a /a/a/c -> err ENOENT
command snap take s22 -> err SNAPEXISTS
command stat /v -> stat number 9 kind file mode 0644 links 1 size 0
command write 1 {35*8194} -> err ENOSPC
command pwrite 0 200 {38*200} -> err ENOSPC
command pwrite 0 205 712e79152dfd9580 -> err ENOSPC
command stat /w -> stat number 3 kind dir mode 0755 links 1 size 0
command rename /d/a /d -> err ENOTDIR
command lstat /e -> stat number 18 kind file mode 0000 links 1 size 67118863
command fstat 1 -> stat number 10 kind file mode 0644 links 1 size 0
command mkdir /q -> err EEXIST
command pwrite 1 4096 {35*20000} -> err ENOSPC
command pwrite 0 1 41999e85a9a8449d -> err ENOSPC
command read 1 0 -> data -
command write 1 {39*131074} -> err EINVAL
command write 1 5df5f08fb41c854c -> err ENOSPC
command in s22 lstat /v -> stat number 9 kind file mode 0644 links 1 size 0
command write 1 {38*256} -> err ENOSPC
command ftruncate 1 2 -> err ENOSPC
command snap take s9 -> err SNAPEXISTS
command link /e /b/b/b -> err ENOENT
command snap take s22 -> err SNAPEXISTS
command open /u/s rwca -> fd 2
command write 2 {37*10000} -> err ENOSPC
command snap take s28 -> err ENOSPC
command rename /e /c -> err ENOSPC
command pwrite 0 2 {39*40} -> err ENOSPC
command mkdir /b 7777 -> err ENOSPC
command lstat /h -> stat number 13 kind link mode 0777 links 1 size 141
command symlink d/e /a -> err EEXIST
command in s16 mkdir /b/a -> err EROFS
command write 0 7bc567dc -> err ENOSPC
command read 2 9 -> data -
command get /j 2 200 -> err EISDIR
command pread 2 130 1 -> data -
command write 33 f90d -> err EBADF
command pread 2 3 0 -> data -
command lseek 1 cur 130 -> at 130
command truncate /a 5000 -> err ENOENT
command pwrite 2 8191 187833d7b69825 -> err ENOSPC
command stat /r -> stat number 19 kind dir mode 0600 links 1 size 0
command unlink /u/s -> err ENOSPC
command rename /q /g -> err ENOSPC
command pread 2 2 3 -> data -
command sync -> ok
command snap take s30 -> err ENOSPC
command in s18 stat /l -> stat number 6 kind dir mode 0755 links 1 size 0
command link /a/d /e/d/e -> err ENOENT
command pwrite 1 130 {38*8192} -> err ENOSPC
command mkdir /b/e/c -> err ENOENT
command unlink /c -> err ENOENT
command fstat 0 -> stat number 10 kind file mode 0644 links 1 size 0
command stat /l/a -> stat number 7 kind dir mode 0600 links 1 size 0
command in s13 truncate //a 100 -> err EROFS
command close 2 -> ok
command unlink /a/e/e -> err ENOENT
command pread 3 199 1 -> err EBADF
command snap take s14 -> err SNAPEXISTS
command close 0 -> ok
command close 1 -> ok
command snap restore s2 -> err ENOSPC
command open /c rwc -> err ENOSPC
command rename /d /w -> err ENOSPC
command in s32 get /c/c 129 65537 -> err EINVAL
command open /x rwc -> err EISDIR
command open /b/.. rwc 0600 -> err ENOENT
command df -> blocks 128 free 9 pledged 0
command truncate /h 4096 -> err ENOENT
command snap take s10 -> err ENOSPC
command link /a/e/c /c -> err ENOENT
command open /a/a wc -> err ENOENT
command get /a 5000 3 -> err ENOENT
command stat /c -> err ENOENT
command list /c -> err ENOENT
command rename /b /v -> err ENOENT
command unlink / -> err EPERM
command open /e/b rwa 0444 -> err ENOTDIR
command unlink /h -> err ENOSPC
command get /q 4097 1 -> data -
command rmdir /c/c/c -> err ENOENT
command open /c/e wc -> err ENOENT
command unlink /h -> err ENOSPC
command unlink /x -> err EPERM
command rmdir /e/b/a -> err ENOTDIR
command df -> blocks 128 free 9 pledged 0
command open /a/a wc -> err ENOENT
command open /d rwc 7777 -> fd 0
command ftruncate 0 8193 -> err ENOSPC
command lseek 0 end 4194306 -> at 4194306
command pread 0 200 200 -> data -
command fstat 0 -> stat number 10 kind file mode 0644 links 1 size 0
command unlink /e/d -> err ENOTDIR
command fstat 0 -> stat number 10 kind file mode 0644 links 1 size 0
command sync -> ok
command symlink a /d -> err EEXIST
command write 0 3c -> err ENOSPC
command open /x rwc 0000 -> err EISDIR
command rmdir /u -> err ENOTEMPTY
command stat /h -> err ENOENT
command get /nnnnnnnnnnnnnnnnnnnnnnnnnnnnnnnnnnnnnnnnnnnnnnnnnnnnnnnnnnnnnnnnnnnnnnnnnnnnnnnnnnnnnnnnnnnnnnnnnnnnnnnnnnnnnnnnnnnnnnnnnnnnnnnnnnnnnnnnnnnnnnnnnnnnnnnnnnnnnnnnnnnnnnnnnnnnnnnnnnnnnnnnnnnnnnnnnnnnnnnnnnnnnnnnnnnnnnnnnnnnnnnnnnnnnnnnnnnnnnnnnnnnnnnnnnnnnnnn 5000 0 -> err ENAMETOOLONG
command unlink /a/c -> err ENOENT
command snap take nnnnnnnnnnnnnnnnnnnnnnnnnnnnnnnnnnnnnnnnnnnnnnnnnnnnnnnnnnnnnnnn -> err BADNAME
command in s0 mkdir /b/a 0000 -> err EROFS
command pwrite 0 5000 5bcf6e655f27f7 -> err ENOSPC
command lseek 0 end 128 -> at 128
command pwrite 0 67108864 dce7c2cd11fc9e -> err ENOSPC
command open /c rwc -> err ENOSPC
command get /e 128 200 -> data {30*400}
command close 0 -> ok
command stat /l -> stat number 6 kind dir mode 0755 links 1 size 0
command stat /x -> stat number 17 kind dir mode 0755 links 1 size 0
command open /r rwc 0000 -> err EISDIR
command in . get /s 4096 9 -> err EISDIR
command open /c rwca 7777 -> err ENOSPC
command open /l/a rwc -> err EISDIR
command rmdir /l/a -> err ENOSPC
command rename /d /c/d/d -> err ENOENT
command snap delete s31 -> ok
command mkdir /n 0600 -> err ENOSPC
command open /n rwca 0444 -> err ENOSPC
command open /b rwc -> err ENOSPC
command symlink ././././././././././././././././././././././././././././././././././././././././././././././././././././././././././././././././././././././b /o -> err EEXIST
command lstat /k -> err ENOENT
command open /r/b rwc 0600 -> fd 0
command snap list -> snaps s32 s22 s0 s16 s9 s13 s23 s2 s15 s3 s18 . s7 s20 s21 s14 s4
command snap take nnnnnnnnnnnnnnnnnnnnnnnnnnnnnnnnnnnnnnnnnnnnnnnnnnnnnnnnnnnnnnnn -> err BADNAME
command open /m/s rwc 7777 -> err ENOTDIR
command pwrite 0 3 {37*20000} -> err ENOSPC
command readlink /h -> text ././././././././././././././././././././././././././././././././././././././././././././././././././././././././././././././././././././././b
command mkdir /. 0444 -> err EINVAL
command open /x rc 0444 -> err EISDIR
command pwrite 0 5 0c4c24fdb389f481 -> err ENOSPC
command symlink a/../b /w -> err EEXIST
command in s20 get /j 128 200 -> err EISDIR
command readlink /x -> err EINVAL
command mkdir /j -> err EEXIST
command mkdir /f/s -> err ENOENT
command lstat /i/b/b -> err ENOENT
command lseek 0 end 100 -> at 104
command open /h/d rwc 0000 -> err ENOENT
command in s3 get /h/h 8191 0 -> err ENOENT
command mkdir /n 0600 -> err ENOSPC
command list /j -> names
command symlink ././././././././././././././././././././././././././././././././././././././././././././././././././././././././././././././././././././././b /w -> err EEXIST
command rmdir /q -> err ENOTDIR
command lseek 0 set 0 -> at 0
command snap take s23 -> err SNAPEXISTS
command mkdir /z 7777 -> err ENOSPC
command in s21 mkdir /h/r 0000 -> err EROFS
command snap take s18 -> err SNAPEXISTS
command get /u 129 5000 -> err EISDIR
command write 0 62ce9ac4 -> err ENOSPC
command open /d/j rwc 0000 -> err ENOTDIR
command pwrite 0 2 6b048a -> err ENOSPC
command rename /c /j -> err ENOENT
command read 0 3 -> data fe6409
command get /l/r/c 8191 200 -> err ENOENT
command fstat 0 -> stat number 21 kind file mode 0000 links 1 size 4
command in . get /t/e 130 0 -> err ENOENT
command mkdir /s -> err ENOSPC
command rmdir /o -> err ENOTDIR
command in s7 readlink /p -> err ENOENT
command close 0 -> ok
command snap restore s8 -> err NOSNAP
command in s4 list /n/b -> err ENOENT
command snap take s9 -> err SNAPEXISTS
command get /h 1 9 -> err ENOENT
command open /w rw 0000 -> err EISDIR
command df -> blocks 128 free 12 pledged 0
command mkdir /y -> err ENOSPC
command mkdir /w -> err EEXIST
command symlink a /y/e -> err ENOENT
command open /a rwc 7777 -> err ENOSPC
command open /j w 0000 -> err EISDIR
command open /u/s rwc 7777 -> fd 0
command mkdir /r -> err EEXIST
command lseek 0 set 8193 -> at 8193
command open /v rwcx 7777 -> err EEXIST
command in s2 stat /l/g -> err ENOENT
command readlink /u/s -> err EINVAL
command rmdir /g -> err ENOTDIR
command readlink /t/e -> err ENOENT
command get /d/q 128 5000 -> err ENOTDIR
command readlink /j -> err EINVAL
command pwrite 0 128 c56bc6 -> err ENOSPC
command open /g rwct -> fd 1
command pread 0 132 0 -> data -
command symlink . /k -> err ENOSPC
command mkdir /b 0444 -> err ENOSPC
command mkdir /t 0000 -> err ENOSPC
command snap take s25 -> ok
command in s1 truncate /y 0 -> err NOSNAP
command lstat /g -> stat number 12 kind file mode 0444 links 1 size 0
command open /g wct 0444 -> fd 2
command df -> blocks 128 free 9 pledged 0
command open /u rwx -> err EINVAL
command close 0 -> ok
command close 1 -> ok
command close 2 -> ok
command snap restore s3 -> err ENOSPC
command open /j/s/j rwcxt -> err ENOENT
command open /e rwcxa 7777 -> err EEXIST
command stat / -> stat number 3 kind dir mode 0755 links 1 size 0
command symlink . /t -> err ENOSPC
command open /o rc -> err ENOTDIR
command open /f rwc -> err ENOSPC
command open /m/h wc 0444 -> err ENOTDIR
command symlink a/../b /v -> err EEXIST
command symlink d/e /k -> err ENOSPC
command mkdir /b -> err ENOSPC
command mkdir /i 7777 -> err ENOSPC
command in s9 get /j 4194304 9 -> err EISDIR
command rename /z /p -> err ENOENT
command open /d wct 0600 -> fd 0
command open /o rwca -> err ENOTDIR
command open /z wca 0000 -> err ENOSPC
command open /e rwc 7777 -> fd 1
command pread 0 1 3 -> err EBADF
command open /e/e rwc -> err ENOTDIR
command write 1 {35*8192} -> err ENOSPC
command fstat 0 -> stat number 10 kind file mode 0644 links 1 size 0
command write 0 {37*8192} -> err ENOSPC
command snap take s28 -> err ENOSPC
command stat /l/a -> stat number 7 kind dir mode 0600 links 1 size 0
command unlink /m -> err ENOSPC
command pwrite 0 4096 - -> wrote 0
command pread 4294967295 0 0 -> err EBADF
command pwrite 33 0 {37*131074} -> err EBADF
command rmdir /d -> err ENOTDIR
command get /c 8191 65537 -> err EINVAL
command write 1 {32*131072} -> err ENOSPC
command in s4 lstat /d -> stat number 10 kind file mode 0644 links 1 size 0
command fstat 0 -> stat number 10 kind file mode 0644 links 1 size 0
command unlink /e -> err ENOSPC
command symlink a /h -> err EEXIST
command stat /m -> stat number 5 kind file mode 0644 links 1 size 128
command snap list -> snaps s32 s22 s0 s16 s9 s13 s23 s2 s15 s3 s18 . s7 s20 s21 s14 s4 s25
command write 0 {32*256} -> err ENOSPC
command write 1 - -> wrote 0
command open /d rwca -> fd 2
command open /e rwca -> fd 3
command open /j rwcx 0000 -> err EEXIST
command pread 0 0 65537 -> err EBADF
command pwrite 2 8191 9c -> err ENOSPC
command pwrite 3 130 {33*200} -> err ENOSPC
command write 0 {36*131072} -> err ENOSPC
command symlink a/../b /a -> err EEXIST
command open /l rwc -> err EISDIR
command readlink /e/a/a -> err ENOTDIR
command write 1 {31*10000} -> err ENOSPC
command write 1 {31*131072} -> err ENOSPC
command sync -> ok
command open /l w -> err EISDIR
command read 2 5000 -> data -
command snap take s16 -> err SNAPEXISTS
command rmdir /g -> err ENOTDIR
command fstat 0 -> stat number 10 kind file mode 0644 links 1 size 0
command get /c 67108863 0 -> err ENOENT
command write 0 {38*131072} -> err ENOSPC
command symlink % /a/d/a -> err ENOENT
command close 2 -> ok
command in . truncate /.. 128 -> err EROFS
command pread 0 71303167 3 -> err EBADF
command sync -> ok
command fsync 0 -> ok
command pwrite 3 2 {37*131072} -> err ENOSPC
command in s2 get /d/e 5000 200 -> err ENOTDIR
command in s5 truncate /a//b 8193 -> err NOSNAP
command close 0 -> ok
command close 1 -> ok
command close 3 -> ok
command snap restore s25 -> err ENOSPC
command mkdir /g -> err EEXIST
command open /v wc -> fd 0
command readlink /r -> err EINVAL
command in s18 list /d -> err ENOTDIR
command stat /o -> err ENOTDIR
command write 0 3eee4bb2402ad872 -> err ENOSPC
command pread 0 9223372036854775807 3 -> err EBADF
command write 0 {38*8194} -> err ENOSPC
command pwrite 0 8191 {32*131074} -> err EINVAL
command read 0 3 -> err EBADF
command close 4294967295 -> err EBADF
command snap restore s25 -> err EBUSY
command write 0 {35*10000} -> err ENOSPC
command write 0 {33*8194} -> err ENOSPC
command in s32 truncate /e 127 -> err EROFS
command write 0 {31*400} -> err ENOSPC
command pwrite 0 67108870 0e35 -> err ENOSPC
command write 2 84078719 -> err EBADF
command open /d/c rwc 7777 -> err ENOTDIR
command pread 0 68719476736 5000 -> err EBADF
command list / -> names a d e g h j l m o q r u v w x
command open /r rwc 0600 -> err EISDIR
command open /d rwc 7777 -> fd 1
command link /h /a -> err EPERM
command pwrite 1 128 {39*20000} -> err ENOSPC
command snap delete s12 -> err NOSNAP
command pread 1 4097 3 -> data -
command pwrite 0 4095 {32*40} -> err ENOSPC
command pwrite 1 8193 {36*256} -> err ENOSPC
command pwrite 2 3 3ab41233 -> err EBADF
command unlink /r/b -> err ENOSPC
command pwrite 1 128 {32*131074} -> err EINVAL
command read 0 200 -> err EBADF
command pwrite 0 127 8a -> err ENOSPC
command write 0 {31*20000} -> err ENOSPC
command df -> blocks 128 free 9 pledged 0
command mkdir /e -> err EEXIST
command write 0 {31*10000} -> err ENOSPC
command stat /d -> stat number 10 kind file mode 0644 links 1 size 0
command write 0 461dcfd01df261 -> err ENOSPC
command write 1 {32*200} -> err ENOSPC
command in s32 readlink /l/a -> err EINVAL
command write 1 {31*120000} -> err ENOSPC
command pwrite 0 200 {39*10000} -> err ENOSPC
command write 1 {39*20000} -> err ENOSPC
command stat /v -> stat number 9 kind file mode 0644 links 1 size 0
command open / rw 0000 -> err EISDIR
command write 1 {32*10000} -> err ENOSPC
command write 0 8f494b4a -> err ENOSPC
command pwrite 1 0 {34*40} -> err ENOSPC
command close 1 -> ok
command rename /g /d/b/e -> err ENOTDIR
command sync -> ok
command get /c 5005 3 -> err ENOENT
command in . stat /e -> stat number 18 kind file mode 0000 links 1 size 4194305
command close 0 -> ok
command snap restore . -> err ENOSPC
command open /d rwc 0444 -> fd 0
command sync -> ok
command symlink a/../b /d -> err EEXIST
command readlink /d -> err EINVAL
command ftruncate 0 128 -> err ENOSPC
command write 0 16c630a8c43e -> err ENOSPC
command in s23 truncate /a 3 -> err EROFS
command df -> blocks 128 free 9 pledged 0
command list /m -> err ENOTDIR
command unlink /a/. -> err EINVAL
command list /m -> err ENOTDIR
command stat a -> err EINVAL
command read 0 200 -> data -
command stat /o -> err ENOTDIR
command read 0 65537 -> err EINVAL
command symlink ////////////////////////////////////////////////////////////////////////////////////////////////////////////////////////////////////////////////////////////////////////////////////////////////////////c /d -> err EEXIST
command mkdir /j 7777 -> err EEXIST
command link /d /d -> err EEXIST
command open /c/d/d rwca 0600 -> err ENOENT
command open /c/a/c wc -> err ENOENT
command close 0 -> ok
command sync -> ok
command snap list -> snaps s32 s22 s0 s16 s9 s13 s23 s2 s15 s3 s18 . s7 s20 s21 s14 s4 s25
command snap take s13 -> err SNAPEXISTS
command open /d rw 0444 -> fd 0
command link /a /b -> err EPERM
command snap take s11 -> err ENOSPC
command read 3 65536 -> err EBADF
command write 0 72c6583fd278d489 -> err ENOSPC
command lseek 0 end 2 -> at 2
command stat /e -> stat number 18 kind file mode 0000 links 1 size 67118863
command in s21 readlink /d/b -> err ENOTDIR
command open /r rw 0000 -> err EISDIR
command snap list -> snaps s32 s22 s0 s16 s9 s13 s23 s2 s15 s3 s18 . s7 s20 s21 s14 s4 s25
command pwrite 0 5000 4f3fa379a6f2 -> err ENOSPC
command ftruncate 0 130 -> err ENOSPC
command lstat /e -> stat number 18 kind file mode 0000 links 1 size 67118863
command pwrite 0 129 {33*8194} -> err ENOSPC
command list /d -> err ENOTDIR
command df -> blocks 128 free 9 pledged 0
command snap take s17 -> err ENOSPC
command sync -> ok
command write 0 ef9fea19dd6e -> err ENOSPC
command in s18 get /b 200 3 -> err ENOENT
command df -> blocks 128 free 9 pledged 0
command read 0 0 -> data -
command ftruncate 0 105 -> err ENOSPC
command symlink /b /c/c -> err ENOENT
command pwrite 0 128 03 -> err ENOSPC
command pwrite 0 4294967295 e627c17be3 -> err ENOSPC
command snap delete s13 -> ok
command list /g -> err ENOTDIR
command pread 0 128 65537 -> err EINVAL
command close 0 -> ok
command snap restore s7 -> ok
command symlink d/e /m -> err EEXIST
command lstat /v -> stat number 9 kind file mode 0644 links 1 size 0
command write 3 9deb37e9 -> err EBADF
command unlink /nnnnnnnnnnnnnnnnnnnnnnnnnnnnnnnnnnnnnnnnnnnnnnnnnnnnnnnnnnnnnnnnnnnnnnnnnnnnnnnnnnnnnnnnnnnnnnnnnnnnnnnnnnnnnnnnnnnnnnnnnnnnnnnnnnnnnnnnnnnnnnnnnnnnnnnnnnnnnnnnnnnnnnnnnnnnnnnnnnnnnnnnnnnnnnnnnnnnnnnnnnnnnnnnnnnnnnnnnnnnnnnnnnnnnnnnnnnnnnnnnnnnnnnnnnnnnnnn -> err ENAMETOOLONG
command symlink a /j -> err EEXIST
command open /c rwca -> err ENOSPC
command open /h rwc -> err ENOSPC
command snap delete . -> ok
command open /e wc 0444 -> fd 0
command read 31 3 -> err EBADF
command in s25 get /a/c 8191 5000 -> err ENOENT
command write 0 7da12e -> err ENOSPC
command in s0 readlink /c -> err ENOENT
command get /v 1 0 -> data -
command close 0 -> ok
command stat /u -> stat number 14 kind dir mode 0000 links 1 size 0
command open /e rwca 0600 -> fd 0
command snap take s7 -> err SNAPEXISTS
command open /l rw -> err EISDIR
command ftruncate 0 1 -> ok
command fsync 0 -> ok
command stat /o -> err ENOTDIR
command snap restore % -> err NOSNAP
command mkdir /e 0000 -> err EEXIST
command open /w rwc 0444 -> err EISDIR
command mkdir / -> err EEXIST
command pwrite 0 100 70b71d9d31c465 -> err ENOSPC
command snap take s2 -> err SNAPEXISTS
command pread 0 2 9 -> data -
command rmdir /e -> err ENOTDIR
command get /g 4096 5000 -> data {30*10000}
command truncate /e 67108865 -> err ENOSPC
command open /m wc 0600 -> fd 1
command mkdir /z 0600 -> err ENOSPC
command mkdir /w 7777 -> err EEXIST
command open /w rwc 0600 -> err EISDIR
command pwrite 1 2 a7f8f98307b9 -> err ENOSPC
command open /. rca -> err EISDIR
command open /e rwc 0444 -> fd 2
command read 0 65536 -> data 00
command snap take s31 -> ok
command link /i /y -> err ENOENT
command write 2 fc23312693 -> err ENOSPC
command in s22 mkdir /g 0444 -> err EROFS
command open /t/i rc 7777 -> err ENOENT
command open /q rwca 7777 -> err ENOSPC
command open /d/l r 7777 -> err ENOTDIR
command open /d rwc 7777 -> fd 3
command write 1 {36*258} -> err ENOSPC
command close 0 -> ok
command close 1 -> ok
command close 2 -> ok
command close 3 -> ok
command snap restore s25 -> ok
command open /b wc 0444 -> err ENOSPC
command truncate /i 200 -> err ENOENT
command open /w/s rwca 0444 -> err ENOSPC
command open /r/h rwc 0600 -> err ENOSPC
command snap take s15 -> err SNAPEXISTS
command open /q rwc 0000 -> fd 0
command open /c/d/o wc -> err ENOENT
command rmdir /r/b -> err ENOTDIR
command symlink .. /s -> err ENOSPC
command mkdir /h 7777 -> err EEXIST
command open /g/h rw -> err ENOTDIR
command mkdir /u/w -> err ENOSPC
command lstat /c/h -> err ENOENT
command open /y rwc 0444 -> err ENOSPC
command open /d rwc 7777 -> fd 1
command open /g/p/c rwc 0000 -> err ENOTDIR
command close 0 -> ok
command close 1 -> ok
command snap restore s15 -> ok
command open /p rca -> err ENOSPC
command snap take s21 -> err SNAPEXISTS
command in s5 get /w 4095 200 -> err NOSNAP
command open // rw 0444 -> err EINVAL
command truncate /j 0 -> err EISDIR
command symlink a /e/u -> err ENOTDIR
command open /g rwc -> fd 0
command open /b rcxt -> err EINVAL
command symlink /b /z/h -> err ENOENT
command open /k/f/p rwcxa -> err ENOENT
command in s25 lstat /s -> err ENOENT
command in s9 readlink /o/j -> err ENOENT
command lseek 0 set 0 -> at 0
command mkdir /i -> err ENOSPC
command snap delete s9 -> ok
command pwrite 0 68719476737 1f9d -> err EFBIG
command open /j rw -> err EISDIR
command open /n rc 0000 -> err ENOSPC
command read 0 0 -> data -
command fstat 0 -> stat number 12 kind file mode 0444 links 1 size 71307394
command readlink /w -> text ..
command open /g/l rwc 0000 -> err ENOTDIR
command open /b/h rwca 0444 -> err ENOENT
command snap delete s3 -> ok
command in s15 get /d 0 3 -> data -
command open /u/v/k rwc 0000 -> err ENOENT
command open /w rwc 0444 -> err EISDIR
command rmdir /e -> err ENOTDIR
command write 0 2fc9dab9 -> err ENOSPC
command symlink % /j -> err ENOENT
command pwrite 0 4095 89f1b8 -> err ENOSPC
command rename /v/z/b /u -> err ENOTDIR
command link /a/ /c/g -> err EINVAL
command snap take s30 -> ok
command open /j wc 0444 -> err EISDIR
command open /q/u rwc 0000 -> err ENOENT
command in s16 get /b 4095 200 -> data -
command in s14 stat /g -> stat number 12 kind file mode 0444 links 1 size 71307394
command stat / -> stat number 3 kind dir mode 0755 links 1 size 0
command list /s -> names
command rmdir /h -> err ENOTDIR
command open /e rwca 0000 -> fd 1
command open /w wc 0600 -> err EISDIR
command write 1 ab0d -> err ENOSPC
command open /f wc 0600 -> err ENOSPC
command lstat /v/m -> err ENOTDIR
command snap delete s21 -> ok
command mkdir /n/x 0600 -> err ENOENT
command fstat 1 -> stat number 18 kind file mode 0000 links 1 size 67118863
command pwrite 1 127 eec94e05 -> err ENOSPC
command open /u wcx -> err EEXIST
command open /e rca 0000 -> fd 2
command mkdir /j 0600 -> err EEXIST
command mkdir / 0444 -> err EEXIST
command in s25 get /s 8191 200 -> err ENOENT
command write 0 fe -> err ENOSPC
command sync -> ok
command open /u/y rwca -> err ENOSPC
command symlink % /d/i -> err ENOENT
command open /a/j rwc -> err ENOENT
command snap take s28 -> ok
command pwrite 1 4194303 {32*400} -> err ENOSPC
command write 1 {38*10000} -> err ENOSPC
command snap take s12 -> ok
command sync -> ok
command write 0 34e5c33697 -> err ENOSPC
command pwrite 1 127 {39*258} -> err ENOSPC
command pwrite 0 8191 {39*200} -> err ENOSPC
command pwrite 2 129 {38*120000} -> err EBADF
command pwrite 2 5000 {36*400} -> err EBADF
command pwrite 2 0 {37*10000} -> err EBADF
command fstat 2 -> stat number 18 kind file mode 0000 links 1 size 67118863
command open /d rx -> err EINVAL
command write 1 {34*120000} -> err ENOSPC
command write 1 {33*8194} -> err ENOSPC
command link /l/a /b -> err EPERM
command df -> blocks 128 free 13 pledged 0
command pwrite 2 8192 {33*200} -> err EBADF
command open /b rwc 0600 -> err ENOSPC
command write 1 {33*120000} -> err ENOSPC
command df -> blocks 128 free 13 pledged 0
command get /e 4194308 9 -> data {30*18}
command write 1 2c0f4a -> err ENOSPC
command close 0 -> ok
command close 1 -> ok
command close 2 -> ok
command snap restore s18 -> ok
command open /c rc 7777 -> err ENOSPC
command open /b rwca 7777 -> err ENOSPC
command in s23 lstat /i -> stat number 10 kind file mode 0644 links 1 size 8190
command open /d rwc 7777 -> fd 0
command in s30 truncate /a 3 -> err EROFS
command snap take s18 -> err SNAPEXISTS
command write 0 4e86fc73 -> err ENOSPC
command pread 0 2 9 -> data 16e800000000000000
command symlink / /h -> err EEXIST
command write 0 {33*131072} -> err ENOSPC
command get /u 127 5000 -> err EISDIR
command fsync 0 -> ok
command close 0 -> ok
command snap restore s4 -> ok
command open /d rwt 7777 -> fd 0
command rmdir /c -> err ENOENT
command rmdir /a -> err ENOTDIR
command pread 0 3 65537 -> err EINVAL
command fsync 0 -> ok
command pwrite 0 129 {32*120000} -> err ENOSPC
command close 0 -> ok
command snap restore s5 -> err NOSNAP
command in s12 list /e -> err ENOTDIR
command snap take s7 -> err SNAPEXISTS
command open /a/b rwc -> err ENOENT
command snap take s14 -> err SNAPEXISTS
command get /a 9223372036854775807 5000 -> err ENOENT
command open /c rw 0000 -> err ENOENT
command open /d/c rwc -> err ENOTDIR
command open /d rwc -> fd 0
command snap take s0 -> err SNAPEXISTS
command in s30 stat /l/a -> stat number 7 kind dir mode 0600 links 1 size 0
command write 0 {36*131072} -> err ENOSPC
command open /lllllllllllllllllllllllllllllllllllllllllllllllllllllllllllllllllllllllllllllllllllllllllllllllllllllllllllllllllllllllllllllllllllllllllllllllllllllllllllllllllllllllllllllllllllllllllllllllllllllllllllllllllllllllllllllllllllllllllllllllllllllllllllllll rwc -> err ENOSPC
command pwrite 0 0 {32*131074} -> err EINVAL
command read 1 65537 -> err EBADF
command symlink a/../b /x -> err EEXIST
command open /m rwc -> fd 1
command df -> blocks 128 free 13 pledged 0
command rmdir /e -> err ENOTDIR
command write 0 {32*256} -> err ENOSPC
command snap delete s4 -> ok
command stat /a -> err ENOENT
command write 1 {32*131074} -> err EINVAL
command write 1 fe -> err ENOSPC
command lstat /a -> stat number 11 kind link mode 0777 links 1 size 2
command write 33 {36*10000} -> err EBADF
command open /d rw 7777 -> fd 2
command snap take s9 -> ok
command in s31 get /e/d 8191 5000 -> err ENOTDIR
command snap delete s16 -> ok
command pread 0 2 200 -> data -
command write 2 {39*400} -> err ENOSPC
command snap delete s7 -> ok
command read 2 65536 -> data -
command snap delete s14 -> ok
command rename /o /g -> err ENOSPC
command write 0 {35*8192} -> err ENOSPC
command read 1 5000 -> data {33*256}
command pwrite 1 4096 {38*200} -> err ENOSPC
command pwrite 32 5000 {38*8192} -> err EBADF
command open /a rwct 7777 -> err ENOSPC
command unlink /l/a -> err EPERM
command truncate /e 129 -> ok
command open /d/a rwcx 0444 -> err ENOTDIR
command stat /a -> err ENOENT
command pwrite 2 71303169 {37*8192} -> err ENOSPC
command snap list -> snaps s32 s22 s0 s23 s2 s15 s18 s20 s25 s31 s30 s28 s12 s9
command symlink ../c /b/b/c -> err ENOENT
command snap take s19 -> ok
command df -> blocks 128 free 19 pledged 0
command snap take nnnnnnnnnnnnnnnnnnnnnnnnnnnnnnnnnnnnnnnnnnnnnnnnnnnnnnnnnnnnnnnn -> err BADNAME
command write 0 {37*8192} -> err ENOSPC
