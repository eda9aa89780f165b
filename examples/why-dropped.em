# A driver stops hearing a multicast group, and the write that cut it off is found by stepping back.
# It joins the group 01:00:5E:00:00:FB. The hash of that address is FB0: word 7Dh of the MTA, at 053F4, bit 16.
link up
w 00100 00000002
w 053F4 00010000
arrive 01005E0000FB02AABBCCDDEE0800 60
# It joins 01:00:5E:00:01:FB, which has the same hash, and 01:00:5E:00:00:01, and leaves both again.
w 053F4 00010000
w 05200 00010000
w 053F4 00000000
w 05200 00000000
arrive 01005E0000FB02AABBCCDDEE0800 60
# The frame was rejected by the filter. The arrival is taken back, and then one event after the other,
# until the same frame is stored again; each try is taken back too.
back
back
arrive 01005E0000FB02AABBCCDDEE0800 60
back
back
arrive 01005E0000FB02AABBCCDDEE0800 60
back
# Now it is: the event taken back before this try did it, the write of 00000000 at 053F4. Here is what it cleared:
r 053F4
