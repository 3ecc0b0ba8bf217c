mms-recording 1
config
clients = 1
end
# Lists of names, of a device that has none.
#: A8 initiate-Request; 80 localDetail 65000; 81 maxServOutstandingCalling 10; 82 maxServOutstandingCalled 10;
#:   83 dataStructureNestingLevel 5; A4 initDetail; 80 versionNumber 1; 81 parameterCBB str1, str2, vnam, valt, vlis;
#:   82 servicesSupported status, getNameList, identify, read, write, getVariableAccessAttributes,
#:   defineNamedVariableList, getNamedVariableListAttributes, deleteNamedVariableList, getDomainAttributes, kill,
#:   readJournal, writeJournal, initializeJournal, reportJournalStatus, getCapabilityList, fileOpen, fileRead,
#:   fileClose, fileDelete, fileDirectory, unsolicitedStatus, informationReport, conclude, cancel
1 A826 800300FDE8 81010A 82010A 830105 A416 800101 810305F100 820C03EE1C00000408000079EF18
# The domains (class 9) of the device: none, and no more follow.
#: A0 confirmed-Request; 02 invokeID 5; A1 getNameList; A0 objectClass; 80 basicObjectClass domain (9);
#:   A1 objectScope; 80 vmdSpecific
1 A00E 020105 A109 A003 800109 A102 8000
# The semaphores (class 4) of the domain X, which isn't there: error, access object-non-existent.
#: A0 confirmed-Request; 02 invokeID 6; A1 getNameList; A0 objectClass; 80 basicObjectClass semaphore (4);
#:   A1 objectScope; 81 domainSpecific X
1 A00F 020106 A10A A003 800104 A103 810158
