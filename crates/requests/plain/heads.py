"""What stands above the rows of each data file."""

FORMAT = '''\
# How a row is written. It begins with `row TITLE`. `image BLOCKS INODES` is the new image, of halves of 131,072 bytes, and `owner UID GID`
# whose folder it is. `before COMMAND` is a command of the file system's own that is done before the first server. `ask BYTES` is a request,
# which a line behind `#` reads (a node as GENERATION.NUMBER), and `told BYTES` the reply, `-` for none. Bytes are two hexadecimal digits
# each, and `HH*N` is so many of one. `at SECONDS NANOSECONDS` is what the clock tells from there on; a server begins at the time of its
# first request. At `again` the folder is unmounted, and the image mounted anew.
'''
HEADS = {
    'recorded.requests': '''\
# Requests that a kernel sent (Linux 6.18) while small programs ran in a mounted folder, with the replies of a plain model: see the folder
# `plain`.
#
''' + FORMAT,
    'removed.requests': '''\
# Requests that a kernel sent (Linux 6.18) while programs took names away, with the replies of a plain model: see the folder `plain`. How a
# row is written stands in the head of recorded.requests.
''',
    'hand.requests': '''\
# Requests that no kernel sends, or seldom, with the replies of a plain model: see the folder `plain`. How a row is written stands in the
# head of recorded.requests.
''',
    'batches.requests': '''\
# Requests that wait in the device together, replies that go before what they tell is durable, and power cuts, with what passes by a plain
# model: see the folder `plain`.
#
# How a row is written stands in the head of recorded.requests. The lines of messages stand in the order in which they pass: a request that
# comes before the reply to the one before it waits in the device with that. With `questions` the kernel can be asked for a message that
# comes behind those that wait: `taken BYTES` is such a question, which the kernel takes, and `refused BYTES` one that it refuses. What it
# sends then is an `ask`.
#
# Of a server, from the mount to `again` or the row's end: `deferred MILLISECONDS BYTES` is how long what it did may wait to be durable
# behind its reply, and how many bytes of the log. `cut WRITE BYTES`: within this device write, counted from 1, the power is cut, and so
# many of its bytes stay; so it fails, and each call behind it. `lost`: in the end not all that was done is durable, as the server tells
# then. `writes N` is how many device writes there are.
''',
    'random.requests': '''\
# Requests made from fixed numbers, with the replies of a plain model: see the folder `plain`, which writes this file. How a row is written
# stands in the head of recorded.requests. A row's name ends with its seed.
''',
    'removed_hand.requests': '''\
# Requests about objects without a name that no kernel sends, or seldom, with the replies of a plain model: see the folder `plain`. How a
# row is written stands in the head of recorded.requests.
''',
    'removed_random.requests': '''\
# Requests made from fixed numbers, some of which take last names away, with the replies of a plain model: see the folder `plain`, which
# writes this file. How a row is written stands in the head of recorded.requests. A row's name ends with its seed.
''',
}
