mms-recording 1
config
# The clock begins at noon of the first day of 1984.
clients = 1
day = 0
ms = 43200000
end

# Blanks at both ends of a line are dropped, empty lines and comments say nothing, and digits may be small letters.
#: A8 initiate-Request; 80 localDetail 65000; 81 maxServOutstandingCalling 10; 82 maxServOutstandingCalled 10;
#:   83 dataStructureNestingLevel 5; A4 initDetail; 80 versionNumber 1; 81 parameterCBB str1, str2, vnam, valt, vlis;
#:   82 servicesSupported status, getNameList, identify, read, write, getVariableAccessAttributes,
#:   defineNamedVariableList, getNamedVariableListAttributes, deleteNamedVariableList, getDomainAttributes, kill,
#:   readJournal, writeJournal, initializeJournal, reportJournalStatus, getCapabilityList, fileOpen, fileRead,
#:   fileClose, fileDelete, fileDirectory, unsolicitedStatus, informationReport, conclude, cancel
  1 a826 800300fde8 81010a 82010a 830105 a416 800101 810305f100 820c03ee1c00000408000079ef18
	 tick   1000
phase
# A phase may have no event. Each ends with a drain of each client, which has a place and isn't printed.
phase
# A program invocation that isn't there ends without effect.
ends P1
#: A0 confirmed-Request; 02 invokeID 1; 80 status FALSE
1 A006 020101 800100
