mms-recording 1
config
# The device's configuration, in TOML. Each key may be left out.
# How many clients there may be, from 1 to 64; 4 where nothing is said.
clients = 2
# When the device starts: the day, from 1 January 1984 on (0 to 65535), and the millisecond of it; 0 where nothing is
# said.
day = 15000
ms = 28800000
# What the device answers to Identify, each 1 to 32 octets from 20 to 7E hex; `VMD`, `CELL` and `1` where nothing is
# said.
vendor = "ACME"
model = "PRESS 4"
revision = "2.1"
end
# Two clients open associations; the second asks who the device is.
#: A8 initiate-Request; 80 localDetail 65000; 81 maxServOutstandingCalling 10; 82 maxServOutstandingCalled 10;
#:   83 dataStructureNestingLevel 5; A4 initDetail; 80 versionNumber 1; 81 parameterCBB str1, str2, vnam, valt, vlis;
#:   82 servicesSupported status, getNameList, identify, read, write, getVariableAccessAttributes,
#:   defineNamedVariableList, getNamedVariableListAttributes, deleteNamedVariableList, getDomainAttributes, kill,
#:   readJournal, writeJournal, initializeJournal, reportJournalStatus, getCapabilityList, fileOpen, fileRead,
#:   fileClose, fileDelete, fileDirectory, unsolicitedStatus, informationReport, conclude, cancel
1 A826 800300FDE8 81010A 82010A 830105 A416 800101 810305F100 820C03EE1C00000408000079EF18
#: A8 initiate-Request, as above
2 A826 800300FDE8 81010A 82010A 830105 A416 800101 810305F100 820C03EE1C00000408000079EF18
#: A0 confirmed-Request; 02 invokeID 1; 82 identify
2 A005 020101 8200
phase
tick 20
#: A0 confirmed-Request; 02 invokeID 1; 80 status FALSE
1 A006 020101 800100
lost 2
#: 8B conclude-Request
2 8B00
#: 8B conclude-Request
1 8B00
