mms-recording 1
config
clients = 2
end
# Two clients open an association each.
#: A8 initiate-Request; 80 localDetail 65000; 81 maxServOutstandingCalling 10; 82 maxServOutstandingCalled 10;
#:   83 dataStructureNestingLevel 5; A4 initDetail; 80 versionNumber 1; 81 parameterCBB str1, str2, vnam, valt, vlis;
#:   82 servicesSupported status, getNameList, identify, read, write, getVariableAccessAttributes,
#:   defineNamedVariableList, getNamedVariableListAttributes, deleteNamedVariableList, getDomainAttributes, kill,
#:   readJournal, writeJournal, initializeJournal, reportJournalStatus, getCapabilityList, fileOpen, fileRead,
#:   fileClose, fileDelete, fileDirectory, unsolicitedStatus, informationReport, conclude, cancel
1 A826 800300FDE8 81010A 82010A 830105 A416 800101 810305F100 820C03EE1C00000408000079EF18
#: A8 initiate-Request, as above
2 A826 800300FDE8 81010A 82010A 830105 A416 800101 810305F100 820C03EE1C00000408000079EF18
# DefineSemaphore: T, with one token.
#: A0 confirmed-Request; 02 invokeID 1; B5 defineSemaphore; A0 semaphoreName; 80 vmd-specific T; 81 numberOfTokens 1
1 A00D 020101 B508 A003 800154 810101
phase
# TakeControl: the first client has the token, for ten milliseconds at most. The second waits for it, for a second at
# most.
#: A0 confirmed-Request; 02 invokeID 2; B3 takeControl; A0 semaphoreName; 80 vmd-specific T; 84 controlTimeOut 10 ms
1 A00D 020102 B308 A003 800154 84010A
#: A0 confirmed-Request; 02 invokeID 2; B3 takeControl; A0 semaphoreName; 80 vmd-specific T;
#:   83 acceptableDelay 1000 ms
2 A00E 020102 B309 A003 800154 830203E8
# ReportSemaphoreStatus: one token of one has an owner. ReportSemaphoreEntryStatus: of those that wait, one entry.
#: A0 confirmed-Request; 02 invokeID 3; B7 reportSemaphoreStatus; 80 vmd-specific T
1 A008 020103 B703 800154
#: A0 confirmed-Request; 02 invokeID 4; B9 reportSemaphoreEntryStatus; A0 semaphoreName; 80 vmd-specific T;
#:   81 state queued (0)
1 A00D 020104 B908 A003 800154 810100
phase
# After ten milliseconds the token is free, and the second client gets its answer.
tick 10
phase
# The first asks again, and waits; the second gives the token back, and the first has it in that very event.
#: A0 confirmed-Request; 02 invokeID 5; B3 takeControl; A0 semaphoreName; 80 vmd-specific T
1 A00A 020105 B305 A003 800154
#: A0 confirmed-Request; 02 invokeID 3; B4 relinquishControl; A0 semaphoreName; 80 vmd-specific T
2 A00A 020103 B405 A003 800154
phase
# The second asks, and takes its request back: a Cancel. The loss of the first frees the token.
#: A0 confirmed-Request; 02 invokeID 4; B3 takeControl; A0 semaphoreName; 80 vmd-specific T
2 A00A 020104 B305 A003 800154
#: 85 cancel-Request 4
2 850104
lost 1
#: A0 confirmed-Request; 02 invokeID 5; B7 reportSemaphoreStatus; 80 vmd-specific T
2 A008 020105 B703 800154
