mms-recording 1
config
clients = 2
end
# An association is lost: what it was is forgotten, and its client is sent nothing of that.
#: A8 initiate-Request; 80 localDetail 65000; 81 maxServOutstandingCalling 10; 82 maxServOutstandingCalled 10;
#:   83 dataStructureNestingLevel 5; A4 initDetail; 80 versionNumber 1; 81 parameterCBB str1, str2, vnam, valt, vlis;
#:   82 servicesSupported status, getNameList, identify, read, write, getVariableAccessAttributes,
#:   defineNamedVariableList, getNamedVariableListAttributes, deleteNamedVariableList, getDomainAttributes, kill,
#:   readJournal, writeJournal, initializeJournal, reportJournalStatus, getCapabilityList, fileOpen, fileRead,
#:   fileClose, fileDelete, fileDirectory, unsolicitedStatus, informationReport, conclude, cancel
1 A826 800300FDE8 81010A 82010A 830105 A416 800101 810305F100 820C03EE1C00000408000079EF18
lost 1
# A request in an idle association gives an abort.
#: A0 confirmed-Request; 02 invokeID 1; 80 status FALSE
1 A006 020101 800100
phase
# It may be opened anew. A proposal in an open association gives an abort, and loses the client.
#: A8 initiate-Request, as above
1 A826 800300FDE8 81010A 82010A 830105 A416 800101 810305F100 820C03EE1C00000408000079EF18
#: A8 initiate-Request, as above
1 A826 800300FDE8 81010A 82010A 830105 A416 800101 810305F100 820C03EE1C00000408000079EF18
# So it is idle again.
#: 8B conclude-Request
1 8B00
# The loss of an idle client changes nothing.
lost 2
