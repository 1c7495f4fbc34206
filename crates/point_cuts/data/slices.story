# Directories of names of 255 bytes, and a file that fills the log. The 452nd plans a point of most blocks of their directory, and the
# next ones write it in slices: cut within each write, each number of bytes of a record staying in one or another of them. Behind each
# of these cuts the tail is run; of the cuts within its writes those are tried whose turn it is, as all of them take too long.
# How a story is written. A line that is empty or begins with `#` says nothing.
#
#   image BLOCKS INODES HALF        a new image of these sizes
#   disk AT DIGITS, nvram AT DIGITS    bytes of it, two hexadecimal digits each: where there are such lines no image is made, and these
#                                   stand over zeros
#   before COMMAND -> REPLY         what is run on it before anything is tried
#   command COMMAND -> REPLY        the story's commands; they run on what that left. Each is spelled as it is written again
#   tail COMMAND -> REPLY           commands that run on what a cut left, and are cut in their turn
#   probe COMMAND -> REPLY          a reading command, and its reply on the image before the first command
#   start                           lines about what is shown before the first command follow
#   again N                         of all second cuts, which come within each write of the tail behind each cut, each N-th is tried only
#   failing                         each device call fails in turn
#   quiet N                         those behind the first N commands make no device call
#   sweep disk A..B, sweep nvram A..B    each byte from A to B becomes 00 and ff in turn: a mount, the commands and a check come to an end
#
# Two spaces before them, lines about the command above:
#
#   COMMAND -> REPLY                a reading command now has another reply than behind the command before
#   + COMMAND -> REPLY              it has this reply where the tail's first command comes next; ++ where two come, +++ for three
#   cut A..B KEEP,KEEP C..D         these device writes are the command's, and the power is to be cut within each: once for each KEEP, which
#                                   says what of the sectors written since the last sync stays (`none`, `all`, or by digits: 1 stays, 0 doesn't,
#                                   2 can't be read then), and once for each number of bytes that stay of a write to the NVRAM
#   without N COMMAND -> REPLY      what command N is answered in a run without this one
#
# Behind a cut within a command the replies are those of the commands before, and a mount then shows what the reading commands show
# behind these, or behind one command more. Where a read fails one command answers `err EIO`, and all others as in a run without it;
# where a write or a sync fails it does, and then all answer `err FAILED`, and a mount shows the state with or without it.
# In texts {HH} is a byte, {HH*N} so many of it, and {A..B HH*N} the numbers from A to B, each in three digits with so many of the byte
# behind it.

image 1024 512 131072
before mkdir /001{6e*252} -> ok
before mkdir /002{6e*252} -> ok
before mkdir /003{6e*252} -> ok
before mkdir /004{6e*252} -> ok
before mkdir /005{6e*252} -> ok
before mkdir /006{6e*252} -> ok
before mkdir /007{6e*252} -> ok
before mkdir /008{6e*252} -> ok
before mkdir /009{6e*252} -> ok
before mkdir /010{6e*252} -> ok
before mkdir /011{6e*252} -> ok
before mkdir /012{6e*252} -> ok
before mkdir /013{6e*252} -> ok
before mkdir /014{6e*252} -> ok
before mkdir /015{6e*252} -> ok
before mkdir /016{6e*252} -> ok
before mkdir /017{6e*252} -> ok
before mkdir /018{6e*252} -> ok
before mkdir /019{6e*252} -> ok
before mkdir /020{6e*252} -> ok
before mkdir /021{6e*252} -> ok
before mkdir /022{6e*252} -> ok
before mkdir /023{6e*252} -> ok
before mkdir /024{6e*252} -> ok
before mkdir /025{6e*252} -> ok
before mkdir /026{6e*252} -> ok
before mkdir /027{6e*252} -> ok
before mkdir /028{6e*252} -> ok
before mkdir /029{6e*252} -> ok
before mkdir /030{6e*252} -> ok
before mkdir /031{6e*252} -> ok
before mkdir /032{6e*252} -> ok
before mkdir /033{6e*252} -> ok
before mkdir /034{6e*252} -> ok
before mkdir /035{6e*252} -> ok
before mkdir /036{6e*252} -> ok
before mkdir /037{6e*252} -> ok
before mkdir /038{6e*252} -> ok
before mkdir /039{6e*252} -> ok
before mkdir /040{6e*252} -> ok
before mkdir /041{6e*252} -> ok
before mkdir /042{6e*252} -> ok
before mkdir /043{6e*252} -> ok
before mkdir /044{6e*252} -> ok
before mkdir /045{6e*252} -> ok
before mkdir /046{6e*252} -> ok
before mkdir /047{6e*252} -> ok
before mkdir /048{6e*252} -> ok
before mkdir /049{6e*252} -> ok
before mkdir /050{6e*252} -> ok
before mkdir /051{6e*252} -> ok
before mkdir /052{6e*252} -> ok
before mkdir /053{6e*252} -> ok
before mkdir /054{6e*252} -> ok
before mkdir /055{6e*252} -> ok
before mkdir /056{6e*252} -> ok
before mkdir /057{6e*252} -> ok
before mkdir /058{6e*252} -> ok
before mkdir /059{6e*252} -> ok
before mkdir /060{6e*252} -> ok
before mkdir /061{6e*252} -> ok
before mkdir /062{6e*252} -> ok
before mkdir /063{6e*252} -> ok
before mkdir /064{6e*252} -> ok
before mkdir /065{6e*252} -> ok
before mkdir /066{6e*252} -> ok
before mkdir /067{6e*252} -> ok
before mkdir /068{6e*252} -> ok
before mkdir /069{6e*252} -> ok
before mkdir /070{6e*252} -> ok
before mkdir /071{6e*252} -> ok
before mkdir /072{6e*252} -> ok
before mkdir /073{6e*252} -> ok
before mkdir /074{6e*252} -> ok
before mkdir /075{6e*252} -> ok
before mkdir /076{6e*252} -> ok
before mkdir /077{6e*252} -> ok
before mkdir /078{6e*252} -> ok
before mkdir /079{6e*252} -> ok
before mkdir /080{6e*252} -> ok
before mkdir /081{6e*252} -> ok
before mkdir /082{6e*252} -> ok
before mkdir /083{6e*252} -> ok
before mkdir /084{6e*252} -> ok
before mkdir /085{6e*252} -> ok
before mkdir /086{6e*252} -> ok
before mkdir /087{6e*252} -> ok
before mkdir /088{6e*252} -> ok
before mkdir /089{6e*252} -> ok
before mkdir /090{6e*252} -> ok
before mkdir /091{6e*252} -> ok
before mkdir /092{6e*252} -> ok
before mkdir /093{6e*252} -> ok
before mkdir /094{6e*252} -> ok
before mkdir /095{6e*252} -> ok
before mkdir /096{6e*252} -> ok
before mkdir /097{6e*252} -> ok
before mkdir /098{6e*252} -> ok
before mkdir /099{6e*252} -> ok
before mkdir /100{6e*252} -> ok
before mkdir /101{6e*252} -> ok
before mkdir /102{6e*252} -> ok
before mkdir /103{6e*252} -> ok
before mkdir /104{6e*252} -> ok
before mkdir /105{6e*252} -> ok
before mkdir /106{6e*252} -> ok
before mkdir /107{6e*252} -> ok
before mkdir /108{6e*252} -> ok
before mkdir /109{6e*252} -> ok
before mkdir /110{6e*252} -> ok
before mkdir /111{6e*252} -> ok
before mkdir /112{6e*252} -> ok
before mkdir /113{6e*252} -> ok
before mkdir /114{6e*252} -> ok
before mkdir /115{6e*252} -> ok
before mkdir /116{6e*252} -> ok
before mkdir /117{6e*252} -> ok
before mkdir /118{6e*252} -> ok
before mkdir /119{6e*252} -> ok
before mkdir /120{6e*252} -> ok
before mkdir /121{6e*252} -> ok
before mkdir /122{6e*252} -> ok
before mkdir /123{6e*252} -> ok
before mkdir /124{6e*252} -> ok
before mkdir /125{6e*252} -> ok
before mkdir /126{6e*252} -> ok
before mkdir /127{6e*252} -> ok
before mkdir /128{6e*252} -> ok
before mkdir /129{6e*252} -> ok
before mkdir /130{6e*252} -> ok
before mkdir /131{6e*252} -> ok
before mkdir /132{6e*252} -> ok
before mkdir /133{6e*252} -> ok
before mkdir /134{6e*252} -> ok
before mkdir /135{6e*252} -> ok
before mkdir /136{6e*252} -> ok
before mkdir /137{6e*252} -> ok
before mkdir /138{6e*252} -> ok
before mkdir /139{6e*252} -> ok
before mkdir /140{6e*252} -> ok
before mkdir /141{6e*252} -> ok
before mkdir /142{6e*252} -> ok
before mkdir /143{6e*252} -> ok
before mkdir /144{6e*252} -> ok
before mkdir /145{6e*252} -> ok
before mkdir /146{6e*252} -> ok
before mkdir /147{6e*252} -> ok
before mkdir /148{6e*252} -> ok
before mkdir /149{6e*252} -> ok
before mkdir /150{6e*252} -> ok
before mkdir /151{6e*252} -> ok
before mkdir /152{6e*252} -> ok
before mkdir /153{6e*252} -> ok
before mkdir /154{6e*252} -> ok
before mkdir /155{6e*252} -> ok
before mkdir /156{6e*252} -> ok
before mkdir /157{6e*252} -> ok
before mkdir /158{6e*252} -> ok
before mkdir /159{6e*252} -> ok
before mkdir /160{6e*252} -> ok
before mkdir /161{6e*252} -> ok
before mkdir /162{6e*252} -> ok
before mkdir /163{6e*252} -> ok
before mkdir /164{6e*252} -> ok
before mkdir /165{6e*252} -> ok
before mkdir /166{6e*252} -> ok
before mkdir /167{6e*252} -> ok
before mkdir /168{6e*252} -> ok
before mkdir /169{6e*252} -> ok
before mkdir /170{6e*252} -> ok
before mkdir /171{6e*252} -> ok
before mkdir /172{6e*252} -> ok
before mkdir /173{6e*252} -> ok
before mkdir /174{6e*252} -> ok
before mkdir /175{6e*252} -> ok
before mkdir /176{6e*252} -> ok
before mkdir /177{6e*252} -> ok
before mkdir /178{6e*252} -> ok
before mkdir /179{6e*252} -> ok
before mkdir /180{6e*252} -> ok
before mkdir /181{6e*252} -> ok
before mkdir /182{6e*252} -> ok
before mkdir /183{6e*252} -> ok
before mkdir /184{6e*252} -> ok
before mkdir /185{6e*252} -> ok
before mkdir /186{6e*252} -> ok
before mkdir /187{6e*252} -> ok
before mkdir /188{6e*252} -> ok
before mkdir /189{6e*252} -> ok
before mkdir /190{6e*252} -> ok
before mkdir /191{6e*252} -> ok
before mkdir /192{6e*252} -> ok
before mkdir /193{6e*252} -> ok
before mkdir /194{6e*252} -> ok
before mkdir /195{6e*252} -> ok
before mkdir /196{6e*252} -> ok
before mkdir /197{6e*252} -> ok
before mkdir /198{6e*252} -> ok
before mkdir /199{6e*252} -> ok
before mkdir /200{6e*252} -> ok
before mkdir /201{6e*252} -> ok
before mkdir /202{6e*252} -> ok
before mkdir /203{6e*252} -> ok
before mkdir /204{6e*252} -> ok
before mkdir /205{6e*252} -> ok
before mkdir /206{6e*252} -> ok
before mkdir /207{6e*252} -> ok
before mkdir /208{6e*252} -> ok
before mkdir /209{6e*252} -> ok
before mkdir /210{6e*252} -> ok
before mkdir /211{6e*252} -> ok
before mkdir /212{6e*252} -> ok
before mkdir /213{6e*252} -> ok
before mkdir /214{6e*252} -> ok
before mkdir /215{6e*252} -> ok
before mkdir /216{6e*252} -> ok
before mkdir /217{6e*252} -> ok
before mkdir /218{6e*252} -> ok
before mkdir /219{6e*252} -> ok
before mkdir /220{6e*252} -> ok
before mkdir /221{6e*252} -> ok
before mkdir /222{6e*252} -> ok
before mkdir /223{6e*252} -> ok
before mkdir /224{6e*252} -> ok
before mkdir /225{6e*252} -> ok
before mkdir /226{6e*252} -> ok
before mkdir /227{6e*252} -> ok
before mkdir /228{6e*252} -> ok
before mkdir /229{6e*252} -> ok
before mkdir /230{6e*252} -> ok
before mkdir /231{6e*252} -> ok
before mkdir /232{6e*252} -> ok
before mkdir /233{6e*252} -> ok
before mkdir /234{6e*252} -> ok
before mkdir /235{6e*252} -> ok
before mkdir /236{6e*252} -> ok
before mkdir /237{6e*252} -> ok
before mkdir /238{6e*252} -> ok
before mkdir /239{6e*252} -> ok
before mkdir /240{6e*252} -> ok
before mkdir /241{6e*252} -> ok
before mkdir /242{6e*252} -> ok
before mkdir /243{6e*252} -> ok
before mkdir /244{6e*252} -> ok
before mkdir /245{6e*252} -> ok
before mkdir /246{6e*252} -> ok
before mkdir /247{6e*252} -> ok
before mkdir /248{6e*252} -> ok
before mkdir /249{6e*252} -> ok
before mkdir /250{6e*252} -> ok
before mkdir /251{6e*252} -> ok
before mkdir /252{6e*252} -> ok
before mkdir /253{6e*252} -> ok
before mkdir /254{6e*252} -> ok
before mkdir /255{6e*252} -> ok
before mkdir /256{6e*252} -> ok
before mkdir /257{6e*252} -> ok
before mkdir /258{6e*252} -> ok
before mkdir /259{6e*252} -> ok
before mkdir /260{6e*252} -> ok
before mkdir /261{6e*252} -> ok
before mkdir /262{6e*252} -> ok
before mkdir /263{6e*252} -> ok
before mkdir /264{6e*252} -> ok
before mkdir /265{6e*252} -> ok
before mkdir /266{6e*252} -> ok
before mkdir /267{6e*252} -> ok
before mkdir /268{6e*252} -> ok
before mkdir /269{6e*252} -> ok
before mkdir /270{6e*252} -> ok
before mkdir /271{6e*252} -> ok
before mkdir /272{6e*252} -> ok
before mkdir /273{6e*252} -> ok
before mkdir /274{6e*252} -> ok
before mkdir /275{6e*252} -> ok
before mkdir /276{6e*252} -> ok
before mkdir /277{6e*252} -> ok
before mkdir /278{6e*252} -> ok
before mkdir /279{6e*252} -> ok
before mkdir /280{6e*252} -> ok
before mkdir /281{6e*252} -> ok
before mkdir /282{6e*252} -> ok
before mkdir /283{6e*252} -> ok
before mkdir /284{6e*252} -> ok
before mkdir /285{6e*252} -> ok
before mkdir /286{6e*252} -> ok
before mkdir /287{6e*252} -> ok
before mkdir /288{6e*252} -> ok
before mkdir /289{6e*252} -> ok
before mkdir /290{6e*252} -> ok
before mkdir /291{6e*252} -> ok
before mkdir /292{6e*252} -> ok
before mkdir /293{6e*252} -> ok
before mkdir /294{6e*252} -> ok
before mkdir /295{6e*252} -> ok
before mkdir /296{6e*252} -> ok
before mkdir /297{6e*252} -> ok
before mkdir /298{6e*252} -> ok
before mkdir /299{6e*252} -> ok
before mkdir /300{6e*252} -> ok
before mkdir /301{6e*252} -> ok
before mkdir /302{6e*252} -> ok
before mkdir /303{6e*252} -> ok
before mkdir /304{6e*252} -> ok
before mkdir /305{6e*252} -> ok
before mkdir /306{6e*252} -> ok
before mkdir /307{6e*252} -> ok
before mkdir /308{6e*252} -> ok
before mkdir /309{6e*252} -> ok
before mkdir /310{6e*252} -> ok
before mkdir /311{6e*252} -> ok
before mkdir /312{6e*252} -> ok
before mkdir /313{6e*252} -> ok
before mkdir /314{6e*252} -> ok
before mkdir /315{6e*252} -> ok
before mkdir /316{6e*252} -> ok
before mkdir /317{6e*252} -> ok
before mkdir /318{6e*252} -> ok
before mkdir /319{6e*252} -> ok
before mkdir /320{6e*252} -> ok
before mkdir /321{6e*252} -> ok
before mkdir /322{6e*252} -> ok
before mkdir /323{6e*252} -> ok
before mkdir /324{6e*252} -> ok
before mkdir /325{6e*252} -> ok
before mkdir /326{6e*252} -> ok
before mkdir /327{6e*252} -> ok
before mkdir /328{6e*252} -> ok
before mkdir /329{6e*252} -> ok
before mkdir /330{6e*252} -> ok
before mkdir /331{6e*252} -> ok
before mkdir /332{6e*252} -> ok
before mkdir /333{6e*252} -> ok
before mkdir /334{6e*252} -> ok
before mkdir /335{6e*252} -> ok
before mkdir /336{6e*252} -> ok
before mkdir /337{6e*252} -> ok
before mkdir /338{6e*252} -> ok
before mkdir /339{6e*252} -> ok
before mkdir /340{6e*252} -> ok
before mkdir /341{6e*252} -> ok
before mkdir /342{6e*252} -> ok
before mkdir /343{6e*252} -> ok
before mkdir /344{6e*252} -> ok
before mkdir /345{6e*252} -> ok
before mkdir /346{6e*252} -> ok
before mkdir /347{6e*252} -> ok
before mkdir /348{6e*252} -> ok
before mkdir /349{6e*252} -> ok
before mkdir /350{6e*252} -> ok
before mkdir /351{6e*252} -> ok
before mkdir /352{6e*252} -> ok
before mkdir /353{6e*252} -> ok
before mkdir /354{6e*252} -> ok
before mkdir /355{6e*252} -> ok
before mkdir /356{6e*252} -> ok
before mkdir /357{6e*252} -> ok
before mkdir /358{6e*252} -> ok
before mkdir /359{6e*252} -> ok
before mkdir /360{6e*252} -> ok
before mkdir /361{6e*252} -> ok
before mkdir /362{6e*252} -> ok
before mkdir /363{6e*252} -> ok
before mkdir /364{6e*252} -> ok
before mkdir /365{6e*252} -> ok
before mkdir /366{6e*252} -> ok
before mkdir /367{6e*252} -> ok
before mkdir /368{6e*252} -> ok
before mkdir /369{6e*252} -> ok
before mkdir /370{6e*252} -> ok
before mkdir /371{6e*252} -> ok
before mkdir /372{6e*252} -> ok
before mkdir /373{6e*252} -> ok
before mkdir /374{6e*252} -> ok
before mkdir /375{6e*252} -> ok
before mkdir /376{6e*252} -> ok
before mkdir /377{6e*252} -> ok
before mkdir /378{6e*252} -> ok
before mkdir /379{6e*252} -> ok
before mkdir /380{6e*252} -> ok
before mkdir /381{6e*252} -> ok
before mkdir /382{6e*252} -> ok
before mkdir /383{6e*252} -> ok
before mkdir /384{6e*252} -> ok
before mkdir /385{6e*252} -> ok
before mkdir /386{6e*252} -> ok
before mkdir /387{6e*252} -> ok
before mkdir /388{6e*252} -> ok
before mkdir /389{6e*252} -> ok
before mkdir /390{6e*252} -> ok
before mkdir /391{6e*252} -> ok
before mkdir /392{6e*252} -> ok
before mkdir /393{6e*252} -> ok
before mkdir /394{6e*252} -> ok
before mkdir /395{6e*252} -> ok
before mkdir /396{6e*252} -> ok
before mkdir /397{6e*252} -> ok
before mkdir /398{6e*252} -> ok
before mkdir /399{6e*252} -> ok
before mkdir /400{6e*252} -> ok
before mkdir /401{6e*252} -> ok
before mkdir /402{6e*252} -> ok
before mkdir /403{6e*252} -> ok
before mkdir /404{6e*252} -> ok
before mkdir /405{6e*252} -> ok
before mkdir /406{6e*252} -> ok
before mkdir /407{6e*252} -> ok
before mkdir /408{6e*252} -> ok
before mkdir /409{6e*252} -> ok
before mkdir /410{6e*252} -> ok
before mkdir /411{6e*252} -> ok
before mkdir /412{6e*252} -> ok
before mkdir /413{6e*252} -> ok
before mkdir /414{6e*252} -> ok
before mkdir /415{6e*252} -> ok
before mkdir /416{6e*252} -> ok
before mkdir /417{6e*252} -> ok
before mkdir /418{6e*252} -> ok
before mkdir /419{6e*252} -> ok
before mkdir /420{6e*252} -> ok
before mkdir /421{6e*252} -> ok
before mkdir /422{6e*252} -> ok
before mkdir /423{6e*252} -> ok
before mkdir /424{6e*252} -> ok
before mkdir /425{6e*252} -> ok
before mkdir /426{6e*252} -> ok
before mkdir /427{6e*252} -> ok
before mkdir /428{6e*252} -> ok
before mkdir /429{6e*252} -> ok
before mkdir /430{6e*252} -> ok
before mkdir /431{6e*252} -> ok
before mkdir /432{6e*252} -> ok
before mkdir /433{6e*252} -> ok
before mkdir /434{6e*252} -> ok
before mkdir /435{6e*252} -> ok
before mkdir /436{6e*252} -> ok
before mkdir /437{6e*252} -> ok
before mkdir /438{6e*252} -> ok
before mkdir /439{6e*252} -> ok
before mkdir /440{6e*252} -> ok
before mkdir /441{6e*252} -> ok
before mkdir /442{6e*252} -> ok
before mkdir /443{6e*252} -> ok
before mkdir /444{6e*252} -> ok
before mkdir /445{6e*252} -> ok
before mkdir /446{6e*252} -> ok
before mkdir /447{6e*252} -> ok
before mkdir /448{6e*252} -> ok
before mkdir /449{6e*252} -> ok
before mkdir /450{6e*252} -> ok
before mkdir /451{6e*252} -> ok
before rmdir /017{6e*252} -> ok
before rmdir /034{6e*252} -> ok
before rmdir /051{6e*252} -> ok
before rmdir /068{6e*252} -> ok
before rmdir /085{6e*252} -> ok
before rmdir /102{6e*252} -> ok
before rmdir /119{6e*252} -> ok
before rmdir /136{6e*252} -> ok
before rmdir /153{6e*252} -> ok
before rmdir /170{6e*252} -> ok
before rmdir /187{6e*252} -> ok
before rmdir /204{6e*252} -> ok
before rmdir /221{6e*252} -> ok
before rmdir /238{6e*252} -> ok
before rmdir /255{6e*252} -> ok
before rmdir /272{6e*252} -> ok
before rmdir /289{6e*252} -> ok
before rmdir /306{6e*252} -> ok
before rmdir /323{6e*252} -> ok
before rmdir /340{6e*252} -> ok
before rmdir /357{6e*252} -> ok
before rmdir /374{6e*252} -> ok
before rmdir /391{6e*252} -> ok
before rmdir /408{6e*252} -> ok
before rmdir /425{6e*252} -> ok
before rmdir /442{6e*252} -> ok
before open /f wc -> fd 0
before sync -> ok
before mkdir /017{6e*252} -> ok
before mkdir /034{6e*252} -> ok
before mkdir /051{6e*252} -> ok
before mkdir /068{6e*252} -> ok
before mkdir /085{6e*252} -> ok
before mkdir /102{6e*252} -> ok
before mkdir /119{6e*252} -> ok
before mkdir /136{6e*252} -> ok
before mkdir /153{6e*252} -> ok
before mkdir /170{6e*252} -> ok
before mkdir /187{6e*252} -> ok
before mkdir /204{6e*252} -> ok
before mkdir /221{6e*252} -> ok
before mkdir /238{6e*252} -> ok
before mkdir /255{6e*252} -> ok
before mkdir /272{6e*252} -> ok
before mkdir /289{6e*252} -> ok
before mkdir /306{6e*252} -> ok
before mkdir /323{6e*252} -> ok
before mkdir /340{6e*252} -> ok
before mkdir /357{6e*252} -> ok
before mkdir /374{6e*252} -> ok
before mkdir /391{6e*252} -> ok
before mkdir /408{6e*252} -> ok
before mkdir /425{6e*252} -> ok
before mkdir /442{6e*252} -> ok
before pwrite 0 0 {61*33060} -> wrote 16530
before pwrite 0 0 {62*33060} -> wrote 16530
before pwrite 0 0 {63*33060} -> wrote 16530
before pwrite 0 0 {64*33060} -> wrote 16530
before pwrite 0 0 {65*33060} -> wrote 16530
before pwrite 0 0 {66*33060} -> wrote 16530
before pwrite 0 0 {61*33060} -> wrote 16530
probe list / -> names {001..451 6e*252} f
probe snap list -> snaps
probe lstat /451{6e*252} -> stat number 454 kind dir mode 0755 links 1 size 0
probe list /451{6e*252} -> names
probe get /f 16520 20 -> data {61*20}
probe lstat /452{6e*252} -> err ENOENT
probe lstat /453{6e*252} -> err ENOENT
probe lstat /454{6e*252} -> err ENOENT
probe lstat /455{6e*252} -> err ENOENT
probe lstat /456{6e*252} -> err ENOENT
probe lstat /457{6e*252} -> err ENOENT
probe lstat /458{6e*252} -> err ENOENT
probe lstat /459{6e*252} -> err ENOENT
probe lstat /460{6e*252} -> err ENOENT
probe lstat /z -> err ENOENT
probe list /z -> err ENOENT
probe in z list / -> err NOSNAP
tail mkdir /z -> ok
tail sync -> ok
tail snap take z -> ok
again 97
start
  + list / -> names {001..451 6e*252} f z
  + lstat /z -> stat number 456 kind dir mode 0755 links 1 size 0
  + list /z -> names
  +++ snap list -> snaps z
  +++ in z list / -> names {001..451 6e*252} f z
command mkdir /452{6e*252} -> ok
  cut 1 none 0..1
  cut 1 none,all 0
  cut 1 none,all 1
  cut 2 none 0..9
  cut 2 none,all 0
  cut 2 none,all 9
  cut 3 none 0..1
  cut 3 none,all 0
  cut 3 none,all 1
  cut 4 10 0..30
  cut 4 none,all 0
  cut 4 none,all 273
  cut 5 none 0..1
  cut 5 none,all 0
  cut 5 none,all 1
  list / -> names {001..452 6e*252} f
  lstat /452{6e*252} -> stat number 456 kind dir mode 0755 links 1 size 0
  + list / -> names {001..452 6e*252} f z
  + lstat /z -> stat number 457 kind dir mode 0755 links 1 size 0
  + list /z -> names
  +++ snap list -> snaps z
  +++ in z list / -> names {001..452 6e*252} f z
command mkdir /453{6e*252} -> ok
  cut 6..13 none,all,10,2,021 0
  cut 14 2 31..61
  cut 14 none,all 0
  cut 14 none,all 273
  cut 15 none 0..1
  cut 15 none,all 0
  cut 15 none,all 1
  list / -> names {001..453 6e*252} f
  lstat /453{6e*252} -> stat number 457 kind dir mode 0755 links 1 size 0
  + list / -> names {001..453 6e*252} f z
  + lstat /z -> stat number 458 kind dir mode 0755 links 1 size 0
  + list /z -> names
  +++ snap list -> snaps z
  +++ in z list / -> names {001..453 6e*252} f z
command mkdir /454{6e*252} -> ok
  cut 16..23 none,all,10,2,021 0
  cut 24 021 62..92
  cut 24 none,all 0
  cut 24 none,all 273
  cut 25 none 0..1
  cut 25 none,all 0
  cut 25 none,all 1
  list / -> names {001..454 6e*252} f
  lstat /454{6e*252} -> stat number 458 kind dir mode 0755 links 1 size 0
  + list / -> names {001..454 6e*252} f z
  + lstat /z -> stat number 459 kind dir mode 0755 links 1 size 0
  + list /z -> names
  +++ snap list -> snaps z
  +++ in z list / -> names {001..454 6e*252} f z
command mkdir /455{6e*252} -> ok
  cut 26..33 none,all,10,2,021 0
  cut 34 none 93..123
  cut 34 none,all 0
  cut 34 none,all 273
  cut 35 none 0..1
  cut 35 none,all 0
  cut 35 none,all 1
  list / -> names {001..455 6e*252} f
  lstat /455{6e*252} -> stat number 459 kind dir mode 0755 links 1 size 0
  + list / -> names {001..455 6e*252} f z
  + lstat /z -> stat number 460 kind dir mode 0755 links 1 size 0
  + list /z -> names
  +++ snap list -> snaps z
  +++ in z list / -> names {001..455 6e*252} f z
command mkdir /456{6e*252} -> ok
  cut 36..43 none,all,10,2,021 0
  cut 44 all 124..154
  cut 44 none,all 0
  cut 44 none,all 273
  cut 45 none 0..1
  cut 45 none,all 0
  cut 45 none,all 1
  list / -> names {001..456 6e*252} f
  lstat /456{6e*252} -> stat number 460 kind dir mode 0755 links 1 size 0
  + list / -> names {001..456 6e*252} f z
  + lstat /z -> stat number 461 kind dir mode 0755 links 1 size 0
  + list /z -> names
  +++ snap list -> snaps z
  +++ in z list / -> names {001..456 6e*252} f z
command mkdir /457{6e*252} -> ok
  cut 46..53 none,all,10,2,021 0
  cut 54 10 155..185
  cut 54 none,all 0
  cut 54 none,all 273
  cut 55 none 0..1
  cut 55 none,all 0
  cut 55 none,all 1
  list / -> names {001..457 6e*252} f
  lstat /457{6e*252} -> stat number 461 kind dir mode 0755 links 1 size 0
  + list / -> names {001..457 6e*252} f z
  + lstat /z -> stat number 462 kind dir mode 0755 links 1 size 0
  + list /z -> names
  +++ snap list -> snaps z
  +++ in z list / -> names {001..457 6e*252} f z
command mkdir /458{6e*252} -> ok
  cut 56..63 none,all,10,2,021 0
  cut 64 2 186..216
  cut 64 none,all 0
  cut 64 none,all 273
  cut 65 none 0..1
  cut 65 none,all 0
  cut 65 none,all 1
  list / -> names {001..458 6e*252} f
  lstat /458{6e*252} -> stat number 462 kind dir mode 0755 links 1 size 0
  + list / -> names {001..458 6e*252} f z
  + lstat /z -> stat number 463 kind dir mode 0755 links 1 size 0
  + list /z -> names
  +++ snap list -> snaps z
  +++ in z list / -> names {001..458 6e*252} f z
command mkdir /459{6e*252} -> ok
  cut 66..74 none,all,10,2,021 0
  cut 75 021 217..247
  cut 75 none,all 0
  cut 75 none,all 273
  cut 76 none 0..1
  cut 76 none,all 0
  cut 76 none,all 1
  list / -> names {001..459 6e*252} f
  lstat /459{6e*252} -> stat number 463 kind dir mode 0755 links 1 size 0
  + list / -> names {001..459 6e*252} f z
  + lstat /z -> stat number 464 kind dir mode 0755 links 1 size 0
  + list /z -> names
  +++ snap list -> snaps z
  +++ in z list / -> names {001..459 6e*252} f z
command mkdir /460{6e*252} -> ok
  cut 77 none 248..273
  cut 77 none,all 0
  cut 77 none,all 273
  cut 78 none 0..1
  cut 78 none,all 0
  cut 78 none,all 1
  list / -> names {001..460 6e*252} f
  lstat /460{6e*252} -> stat number 464 kind dir mode 0755 links 1 size 0
  + list / -> names {001..460 6e*252} f z
  + lstat /z -> stat number 465 kind dir mode 0755 links 1 size 0
  + list /z -> names
  +++ snap list -> snaps z
  +++ in z list / -> names {001..460 6e*252} f z
