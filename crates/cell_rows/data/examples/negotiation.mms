mms-recording 1
config
# Four clients, as where nothing is said.
end
# Proposals that are refused: the association stays idle.
# Version 0: version-incompatible.
#: A8 initiate-Request; 80 localDetail 65000; 81 maxServOutstandingCalling 10; 82 maxServOutstandingCalled 10;
#:   83 dataStructureNestingLevel 5; A4 initDetail; 80 versionNumber 0; 81 parameterCBB str1, str2, vnam, valt, vlis;
#:   82 servicesSupported status, getNameList, identify, read, write, getVariableAccessAttributes,
#:   defineNamedVariableList, getNamedVariableListAttributes, deleteNamedVariableList, getDomainAttributes, kill,
#:   readJournal, writeJournal, initializeJournal, reportJournalStatus, getCapabilityList, fileOpen, fileRead,
#:   fileClose, fileDelete, fileDirectory, unsolicitedStatus, informationReport, conclude, cancel
1 A826 800300FDE8 81010A 82010A 830105 A416 800100 810305F100 820C03EE1C00000408000079EF18
# A PDU size of 511 octets: max-segment-insufficient.
#: A8 initiate-Request; 80 localDetail 511; 81 maxServOutstandingCalling 10; 82 maxServOutstandingCalled 10;
#:   83 dataStructureNestingLevel 5; A4 initDetail; 80 versionNumber 1; 81 parameterCBB str1, str2, vnam, valt, vlis;
#:   82 servicesSupported status, getNameList, identify, read, write, getVariableAccessAttributes,
#:   defineNamedVariableList, getNamedVariableListAttributes, deleteNamedVariableList, getDomainAttributes, kill,
#:   readJournal, writeJournal, initializeJournal, reportJournalStatus, getCapabilityList, fileOpen, fileRead,
#:   fileClose, fileDelete, fileDirectory, unsolicitedStatus, informationReport, conclude, cancel
2 A826 80030001FF 81010A 82010A 830105 A416 800101 810305F100 820C03EE1C00000408000079EF18
# Calling 0: max-services-outstanding-calling-insufficient.
#: A8 initiate-Request; 80 localDetail 65000; 81 maxServOutstandingCalling 0; 82 maxServOutstandingCalled 10;
#:   83 dataStructureNestingLevel 5; A4 initDetail; 80 versionNumber 1; 81 parameterCBB str1, str2, vnam, valt, vlis;
#:   82 servicesSupported status, getNameList, identify, read, write, getVariableAccessAttributes,
#:   defineNamedVariableList, getNamedVariableListAttributes, deleteNamedVariableList, getDomainAttributes, kill,
#:   readJournal, writeJournal, initializeJournal, reportJournalStatus, getCapabilityList, fileOpen, fileRead,
#:   fileClose, fileDelete, fileDirectory, unsolicitedStatus, informationReport, conclude, cancel
3 A826 800300FDE8 810100 82010A 830105 A416 800101 810305F100 820C03EE1C00000408000079EF18
# Nesting 0: nesting-level-insufficient.
#: A8 initiate-Request; 80 localDetail 65000; 81 maxServOutstandingCalling 10; 82 maxServOutstandingCalled 10;
#:   83 dataStructureNestingLevel 0; A4 initDetail; 80 versionNumber 1; 81 parameterCBB str1, str2, vnam, valt, vlis;
#:   82 servicesSupported status, getNameList, identify, read, write, getVariableAccessAttributes,
#:   defineNamedVariableList, getNamedVariableListAttributes, deleteNamedVariableList, getDomainAttributes, kill,
#:   readJournal, writeJournal, initializeJournal, reportJournalStatus, getCapabilityList, fileOpen, fileRead,
#:   fileClose, fileDelete, fileDirectory, unsolicitedStatus, informationReport, conclude, cancel
4 A826 800300FDE8 81010A 82010A 830100 A416 800101 810305F100 820C03EE1C00000408000079EF18
# And then nothing but a proposal is heard.
#: 8B conclude-Request
1 8B00
phase
# A proposal with less than the server's own values gets what it proposes: 1,000 octets, calling 2, called 3.
#: A8 initiate-Request; 80 localDetail 1000; 81 maxServOutstandingCalling 2; 82 maxServOutstandingCalled 3;
#:   83 dataStructureNestingLevel 5; A4 initDetail; 80 versionNumber 1; 81 parameterCBB str1, str2, vnam, valt, vlis;
#:   82 servicesSupported status, getNameList, identify, read, write, getVariableAccessAttributes,
#:   defineNamedVariableList, getNamedVariableListAttributes, deleteNamedVariableList, getDomainAttributes, kill,
#:   readJournal, writeJournal, initializeJournal, reportJournalStatus, getCapabilityList, fileOpen, fileRead,
#:   fileClose, fileDelete, fileDirectory, unsolicitedStatus, informationReport, conclude, cancel
1 A826 80030003E8 810102 820103 830105 A416 800101 810305F100 820C03EE1C00000408000079EF18
