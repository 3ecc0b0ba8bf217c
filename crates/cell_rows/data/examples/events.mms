mms-recording 1
config
clients = 2
# A limit switch: a cell that is a truth value and FALSE, and the name Switch for it. Somebody writes it; a condition
# watches it.
[[cell]]
number = 0
type = "8300"
value = "830100"
[[variable]]
name = "Switch"
cell = 0
end
# Two clients open their associations.
#: A8 initiate-Request; 80 localDetail 65000; 81 maxServOutstandingCalling 10; 82 maxServOutstandingCalled 10;
#:   83 dataStructureNestingLevel 5; A4 initDetail; 80 versionNumber 1; 81 parameterCBB str1, str2, vnam, valt, vlis;
#:   82 servicesSupported status, getNameList, identify, read, write, getVariableAccessAttributes,
#:   defineNamedVariableList, getNamedVariableListAttributes, deleteNamedVariableList, getDomainAttributes, kill,
#:   readJournal, writeJournal, initializeJournal, reportJournalStatus, getCapabilityList, fileOpen, fileRead,
#:   fileClose, fileDelete, fileDirectory, unsolicitedStatus, informationReport, conclude, cancel
1 A826 800300FDE8 81010A 82010A 830105 A416 800101 810305F100 820C03EE1C00000408000079EF18
#: A8 initiate-Request, as above
2 A826 800300FDE8 81010A 82010A 830105 A416 800101 810305F100 820C03EE1C00000408000079EF18
phase
# DefineEventCondition [47] of client 1: Door is monitored (81 01 01) on the variable Switch, every 10 ms (87 01 0A)
# counted from this moment, 0. It is disabled until AlterEventConditionMonitoring [51] enables it.
#: A0 confirmed-Request; 02 invokeID 1; BF2F defineEventCondition; A0 eventConditionName; 80 vmd-specific Door;
#:   81 class monitored (1); 83 severity 10; A6 monitoredVariable; A0 name; 80 vmd-specific Switch;
#:   87 evaluationInterval 10 ms
1 A023 020101 BF2F1D A006 8004446F6F72 810101 83010A A60A A008 8006537769746368 87010A
# DefineEventEnrollment [57] of client 2: its own name DoorMoves (82) for Door's transitions from idle to active and
# from active to idle (82 02 02 14: bits 3 and 5 of seven).
#: A0 confirmed-Request; 02 invokeID 1; BF39 defineEventEnrollment; A0 eventEnrollmentName; 82 aa-specific DoorMoves;
#:   A1 eventConditionName; 80 vmd-specific Door; 82 eventConditionTransitions active-to-idle, idle-to-active;
#:   83 alarmAcknowledgementRule none (0)
2 A022 020101 BF391C A00B 8209446F6F724D6F766573 A106 8004446F6F72 82020214 830100
# Door is enabled. Switch is FALSE, so Door comes to idle at once, without an evaluation; nobody enrolled for that.
#: A0 confirmed-Request; 02 invokeID 2; BF33 alterEventConditionMonitoring; A0 eventConditionName;
#:   80 vmd-specific Door; 81 enabled TRUE
1 A011 020102 BF330B A006 8004446F6F72 8101FF
phase
# The switch closes at 3 ms. A write moves no condition: ReportEventConditionStatus [50] tells state 1, idle, since 0
# (A4 08 80 06, and milliseconds of the day and the day).
tick 3
#: A0 confirmed-Request; 02 invokeID 3; A5 write; A0 listOfVariable; 30 VariableDef; A0 name; 80 vmd-specific Switch;
#:   A0 listOfData; 83 boolean TRUE
1 A018 020103 A513 A00C 300A A008 8006537769746368 A003 8301FF
#: A0 confirmed-Request; 02 invokeID 4; BF32 reportEventConditionStatus; 80 vmd-specific Door
1 A00C 020104 BF3206 8004446F6F72
phase
# The next evaluation lies at 10 ms. In the tick that takes the time to 15 ms Door comes to active, and client 2 is
# told, without having asked: eventNotification with state 2, active, and the moment 10 ms (00 00 00 0A).
tick 12
#: A0 confirmed-Request; 02 invokeID 5; BF32 reportEventConditionStatus; 80 vmd-specific Door
1 A00C 020105 BF3206 8004446F6F72
phase
# The switch opens at 15 ms, and Door is idle again at 20 ms.
#: A0 confirmed-Request; 02 invokeID 6; A5 write; A0 listOfVariable; 30 VariableDef; A0 name; 80 vmd-specific Switch;
#:   A0 listOfData; 83 boolean FALSE
1 A018 020106 A513 A00C 300A A008 8006537769746368 A003 830100
tick 30
phase
# A condition that no cell moves but a client: Alarm is network-triggered (81 01 00, with neither variable nor
# interval), of severity 1. Client 2 enrolls for both transitions. TriggerEvent [52] makes Alarm active and idle
# again: its enrollments are told both, at 45 ms.
#: A0 confirmed-Request; 02 invokeID 7; BF2F defineEventCondition; A0 eventConditionName; 80 vmd-specific Alarm;
#:   81 class network-triggered (0); 83 severity 1
1 A015 020107 BF2F0F A007 8005416C61726D 810100 830101
#: A0 confirmed-Request; 02 invokeID 2; BF39 defineEventEnrollment; A0 eventEnrollmentName; 80 vmd-specific OnAlarm;
#:   A1 eventConditionName; 80 vmd-specific Alarm; 82 eventConditionTransitions active-to-idle, idle-to-active;
#:   83 alarmAcknowledgementRule none (0)
2 A021 020102 BF391B A009 80074F6E416C61726D A107 8005416C61726D 82020214 830100
#: A0 confirmed-Request; 02 invokeID 8; BF34 triggerEvent; A0 eventConditionName; 80 vmd-specific Alarm
1 A00F 020108 BF3409 A007 8005416C61726D
phase
# DeleteEventCondition [48] of both, and of one that is missing: the answer 9F30 01 01 tells that one wasn't deleted.
# DoorMoves and OnAlarm go with their conditions. Nobody enrolled for deletions (bit 6), so nobody is told.
#: A0 confirmed-Request; 02 invokeID 9; BF30 deleteEventCondition; A0 specific; 80 vmd-specific Door;
#:   80 vmd-specific Gone; 80 vmd-specific Alarm
1 A01B 020109 BF3015 A013 8004446F6F72 8004476F6E65 8005416C61726D
# So DeleteEventEnrollment [58] finds none of them.
#: A0 confirmed-Request; 02 invokeID 3; BF3A deleteEventEnrollment; A0 specific; 82 aa-specific DoorMoves;
#:   80 vmd-specific OnAlarm
2 A01C 020103 BF3A16 A014 8209446F6F724D6F766573 80074F6E416C61726D
#: 8B conclude-Request
1 8B00
#: 8B conclude-Request
2 8B00
