mms-recording 1
config
end
# One client opens an association, asks for the state of the device, and concludes. In these examples octets are parted
# element by element: of one that holds others its tag and its length stand alone, and what it holds comes behind.
# Initiate (A8): PDUs of 65,000 octets at most (80), ten requests each way at a time (81 and 82), data that nests to
# depth 5 (83), and in A4 version 1 (80), the parameters of the conversation (81), and the services that the client
# would serve (82).
#: A8 initiate-Request; 80 localDetail 65000; 81 maxServOutstandingCalling 10; 82 maxServOutstandingCalled 10;
#:   83 dataStructureNestingLevel 5; A4 initDetail; 80 versionNumber 1; 81 parameterCBB str1, str2, vnam, valt, vlis;
#:   82 servicesSupported status, getNameList, identify, read, write, getVariableAccessAttributes,
#:   defineNamedVariableList, getNamedVariableListAttributes, deleteNamedVariableList, getDomainAttributes, kill,
#:   readJournal, writeJournal, initializeJournal, reportJournalStatus, getCapabilityList, fileOpen, fileRead,
#:   fileClose, fileDelete, fileDirectory, unsolicitedStatus, informationReport, conclude, cancel
1 A826 800300FDE8 81010A 82010A 830105 A416 800101 810305F100 820C03EE1C00000408000079EF18
# A confirmed request (A0) with the invokeID 1 (02): Status (80), not derived anew (00).
#: A0 confirmed-Request; 02 invokeID 1; 80 status FALSE
1 A006 020101 800100
# Conclude (8B), which holds nothing.
#: 8B conclude-Request
1 8B00
