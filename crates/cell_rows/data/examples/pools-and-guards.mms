mms-recording 1
config
clients = 3
# A cell that is written by owners of a token of Robots alone, and its name.
[[cell]]
number = 0
type = "850120"
value = "850100"
guard = "Robots"
[[variable]]
name = "Speed"
cell = 0
# A pool of two tokens.
[[pool]]
name = "Robots"
tokens = ["R1", "R2"]
end
# Three clients open an association each.
#: A8 initiate-Request; 80 localDetail 65000; 81 maxServOutstandingCalling 10; 82 maxServOutstandingCalled 10;
#:   83 dataStructureNestingLevel 5; A4 initDetail; 80 versionNumber 1; 81 parameterCBB str1, str2, vnam, valt, vlis;
#:   82 servicesSupported status, getNameList, identify, read, write, getVariableAccessAttributes,
#:   defineNamedVariableList, getNamedVariableListAttributes, deleteNamedVariableList, getDomainAttributes, kill,
#:   readJournal, writeJournal, initializeJournal, reportJournalStatus, getCapabilityList, fileOpen, fileRead,
#:   fileClose, fileDelete, fileDirectory, unsolicitedStatus, informationReport, conclude, cancel
1 A826 800300FDE8 81010A 82010A 830105 A416 800101 810305F100 820C03EE1C00000408000079EF18
#: A8 initiate-Request, as above
2 A826 800300FDE8 81010A 82010A 830105 A416 800101 810305F100 820C03EE1C00000408000079EF18
#: A8 initiate-Request, as above
3 A826 800300FDE8 81010A 82010A 830105 A416 800101 810305F100 820C03EE1C00000408000079EF18
phase
# TakeControl: the first client asks for any token, for ten milliseconds at most, and is told that it has R1, the first
# by its octets. The second names R2, and wants it to stay its own should it be lost.
#: A0 confirmed-Request; 02 invokeID 1; B3 takeControl; A0 semaphoreName; 80 vmd-specific Robots;
#:   84 controlTimeOut 10 ms
1 A012 020101 B30D A008 8006526F626F7473 84010A
#: A0 confirmed-Request; 02 invokeID 1; B3 takeControl; A0 semaphoreName; 80 vmd-specific Robots; 81 namedToken R2;
#:   86 relinquishIfConnectionLost FALSE
2 A016 020101 B311 A008 8006526F626F7473 81025232 860100
# The third wants R2 too, and waits. ReportPoolSemaphoreStatus: both tokens are owned. ReportSemaphoreEntryStatus: who
# waits.
#: A0 confirmed-Request; 02 invokeID 1; B3 takeControl; A0 semaphoreName; 80 vmd-specific Robots; 81 namedToken R2
3 A013 020101 B30E A008 8006526F626F7473 81025232
#: A0 confirmed-Request; 02 invokeID 2; B8 reportPoolSemaphoreStatus; A0 semaphoreName; 80 vmd-specific Robots
1 A00F 020102 B80A A008 8006526F626F7473
#: A0 confirmed-Request; 02 invokeID 3; B9 reportSemaphoreEntryStatus; A0 semaphoreName; 80 vmd-specific Robots;
#:   81 state queued (0)
1 A012 020103 B90D A008 8006526F626F7473 810100
phase
# Write: the first client owns a token of the guard, so Speed becomes 7. The third doesn't: object-access-denied (3). It
# reads 7.
#: A0 confirmed-Request; 02 invokeID 4; A5 write; A0 listOfVariable; 30 VariableDef; A0 name; 80 vmd-specific Speed;
#:   A0 listOfData; 85 integer 7
1 A017 020104 A512 A00B 3009 A007 80055370656564 A003 850107
#: A0 confirmed-Request; 02 invokeID 2; A5 write; A0 listOfVariable; 30 VariableDef; A0 name; 80 vmd-specific Speed;
#:   A0 listOfData; 85 integer 8
3 A017 020102 A512 A00B 3009 A007 80055370656564 A003 850108
#: A0 confirmed-Request; 02 invokeID 3; A4 read; A1 variableAccessSpecification; A0 listOfVariable; 30 VariableDef;
#:   A0 name; 80 vmd-specific Speed
3 A014 020103 A40F A10D A00B 3009 A007 80055370656564
phase
# After ten milliseconds R1 is free: the third wants R2. The first client owns nothing now, and may not write.
tick 10
#: A0 confirmed-Request; 02 invokeID 5; A5 write; A0 listOfVariable; 30 VariableDef; A0 name; 80 vmd-specific Speed;
#:   A0 listOfData; 85 integer 9
1 A017 020105 A512 A00B 3009 A007 80055370656564 A003 850109
#: A0 confirmed-Request; 02 invokeID 6; B8 reportPoolSemaphoreStatus; A0 semaphoreName; 80 vmd-specific Robots
1 A00F 020106 B80A A008 8006526F626F7473
phase
# The second client is lost, and R2 is hung. Who names that client has it at once, before the third, which waits.
lost 2
#: A0 confirmed-Request; 02 invokeID 7; B8 reportPoolSemaphoreStatus; A0 semaphoreName; 80 vmd-specific Robots
1 A00F 020107 B80A A008 8006526F626F7473
#: A0 confirmed-Request; 02 invokeID 8; B3 takeControl; A0 semaphoreName; 80 vmd-specific Robots; 81 namedToken R2;
#:   A7 applicationToPreempt; A1 ap-invocation-id; 02 INTEGER 2
1 A01A 020108 B315 A008 8006526F626F7473 81025232 A705 A103 020102
phase
# RelinquishControl needs the token's name: without it the request is refused, type-inconsistent. With it the third
# client has R2 in that very event, and may write.
#: A0 confirmed-Request; 02 invokeID 9; B4 relinquishControl; A0 semaphoreName; 80 vmd-specific Robots
1 A00F 020109 B40A A008 8006526F626F7473
#: A0 confirmed-Request; 02 invokeID 10; B4 relinquishControl; A0 semaphoreName; 80 vmd-specific Robots;
#:   81 namedToken R2
1 A013 02010A B40E A008 8006526F626F7473 81025232
#: A0 confirmed-Request; 02 invokeID 4; A5 write; A0 listOfVariable; 30 VariableDef; A0 name; 80 vmd-specific Speed;
#:   A0 listOfData; 85 integer 9
3 A017 020104 A512 A00B 3009 A007 80055370656564 A003 850109
# ReportSemaphoreStatus: a pool, of two tokens, of which one is owned. It was configured, so it can not be deleted:
# object-access-denied.
#: A0 confirmed-Request; 02 invokeID 11; B7 reportSemaphoreStatus; 80 vmd-specific Robots
1 A00D 02010B B708 8006526F626F7473
#: A0 confirmed-Request; 02 invokeID 12; B6 deleteSemaphore; 80 vmd-specific Robots
1 A00D 02010C B608 8006526F626F7473
