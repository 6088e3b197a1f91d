"""Python beside `bagit`, the proved program that makes and checks BagIt bags.

Nothing here judges a bag: each verdict is a status and a closing line that
`bagit` has written. The modules:

lines       what `bagit` writes, line by line
files       read, written so that they are on the disk, named, locked
program     runs of `bagit`, and what each says of a bag
seal        a digest that changes with any tag file of a bag
report      `bagit-keep report`: reports as JSON, CSV or a summary
check       `bagit-keep check`: a large bag, checked in parts
fingerprint  whether a bag is the same still
go_round    `bagit-keep round`: many bags, checked in a round
rounds      what is on the disk of a round
checks      the checks of a round, several at a time
progress    how far checks are
table       the table of a round, also beside an earlier one
bagit       bags by the names of bagit-python
errors      what it raises, and the details of faults
elements    the elements of bag-info.txt that it reads and writes
make        `bagit-keep make`: folders are made bags
edit        `bagit-keep edit`: a tag file is changed
repack      `bagit-keep repack`: a payload is changed, by a new bag
restore     `bagit-keep restore`: files come back from copies
beside      the folder beside a bag in which they work
mending     tag files that are changed, and manifests with them
trees       files and folders that are made beside others
runs        what `bagit` and `bagit-renew` answer of one bag
tags        tag files, read to be shown
info        `bagit-keep info`: what the tag files of a bag say
receive     `bagit-keep receive`: a deposit becomes a bag of a store
members     the files that come: listed, judged by paths, and unpacked
archives    what a .tar or a .zip has
serialization  what a profile says of archive files
receipts    what came, what was found, what became of it
received    the receipts of a register
fetch       `bagit-keep fetch`: the files that fetch.txt names
send        `bagit-keep send`: a bag, packed as a .tar that is checked
register    the memory of an archive's bags, a database
keeping     the commands that change it, or say what it says
audit       `bagit-keep audit`: bags of a register are read whole
news        what of what was found nobody has taken note of
renewal     `bagit-keep renew`: a bag of a register is renewed
page        `bagit-keep page`: registers, rounds and reports as pages
premis      events of a bag as PREMIS 3
places      folders in which something is made, and names given once
commands    which commands there are, and how any of them ends
supported   refuses a Python that is too old
messages    what they say to people
usage       how they read their words, by the text of their help
"""

__version__ = "1.0.0"
