mms-recording 1
config
clients = 2
end
# Two clients open their associations: 1 is the controller of a press, 2 is the desk of its operator.
#: A8 initiate-Request; 80 localDetail 65000; 81 maxServOutstandingCalling 10; 82 maxServOutstandingCalled 10;
#:   83 dataStructureNestingLevel 5; A4 initDetail; 80 versionNumber 1; 81 parameterCBB str1, str2, vnam, valt, vlis;
#:   82 servicesSupported status, getNameList, identify, read, write, getVariableAccessAttributes,
#:   defineNamedVariableList, getNamedVariableListAttributes, deleteNamedVariableList, getDomainAttributes, kill,
#:   readJournal, writeJournal, initializeJournal, reportJournalStatus, getCapabilityList, fileOpen, fileRead,
#:   fileClose, fileDelete, fileDirectory, unsolicitedStatus, informationReport, conclude, cancel
1 A826 800300FDE8 81010A 82010A 830105 A416 800101 810305F100 820C03EE1C00000408000079EF18
#: A8 initiate-Request, as above
2 A826 800300FDE8 81010A 82010A 830105 A416 800101 810305F100 820C03EE1C00000408000079EF18
phase
# CreateJournal [69] makes Log, a journal of the device: its name stands under A0 of its own, as a choice.
#: A0 confirmed-Request; 02 invokeID 1; BF45 createJournal; A0 journalName; 80 vmd-specific Log
1 A00D 020101 BF4507 A005 80034C6F67
phase
# WriteJournal [66] of client 1, two entries, each a SEQUENCE (30): its occurrenceTime (80 06: milliseconds of the
# day in four octets and the day since 1 January 1984 in two, here 08:00:00.000 and 08:00:01.500 of day 15,674) and
# its data (A2). The first tells an event (A0), Pressing of the client's own association (82), active (81 01 02), and
# two variables (A1), each a tag (80) and a value (A1); the second one variable alone.
#: A0 confirmed-Request; 02 invokeID 2; BF42 writeJournal; A0 journalName; 80 vmd-specific Log; A1 listOfJournalEntry;
#:   30 JournalContent; 80 occurrenceTime 08:00:00.000, day 15674; A2 data; A0 event; A0 eventConditionName;
#:   82 aa-specific Pressing; 81 currentState active (2); A1 listOfVariables; 30 SEQUENCE; 80 variableTag "force";
#:   A1 valueSpecification; 85 integer 1000; 30 SEQUENCE; 80 variableTag "temp"; A1 valueSpecification; 85 integer 64;
#:   30 JournalContent; 80 occurrenceTime 08:00:01.500, day 15674; A2 data; A1 listOfVariables; 30 SEQUENCE;
#:   80 variableTag "temp"; A1 valueSpecification; 85 integer 65
1 A065 020102 BF425F A005 80034C6F67 A156 3039 800601B774003D3A A22F A00F A00A 82085072657373696E67 810102 A11C 300D 8005666F726365 A104 850203E8 300B 800474656D70 A103 850140 3019 800601B779DC3D3A A20F A10D 300B 800474656D70 A103 850141
# Client 2 writes a note (annotation, 83) into the same journal. It is the third entry: numbers are given by the
# journal, from 1 on, whoever writes. Nobody checks the times: they are the clients' own, and this one is earlier.
#: A0 confirmed-Request; 02 invokeID 1; BF42 writeJournal; A0 journalName; 80 vmd-specific Log; A1 listOfJournalEntry;
#:   30 JournalContent; 80 occurrenceTime 08:00:01.000, day 15674; 83 annotation "oil checked"
2 A026 020101 BF4220 A005 80034C6F67 A117 3015 800601B777E83D3A 830B6F696C20636865636B6564
# And client 1 again, with two variables of one tag.
#: A0 confirmed-Request; 02 invokeID 3; BF42 writeJournal; A0 journalName; 80 vmd-specific Log; A1 listOfJournalEntry;
#:   30 JournalContent; 80 occurrenceTime 08:00:02.000, day 15674; A2 data; A0 event; A0 eventConditionName;
#:   82 aa-specific Pressing; 81 currentState idle (1); A1 listOfVariables; 30 SEQUENCE; 80 variableTag "force";
#:   A1 valueSpecification; 85 integer 0; 30 SEQUENCE; 80 variableTag "temp"; A1 valueSpecification; 85 integer 66;
#:   30 SEQUENCE; 80 variableTag "force"; A1 valueSpecification; 85 integer 1
1 A057 020103 BF4251 A005 80034C6F67 A148 3046 800601B77BD03D3A A23C A00F A00A 82085072657373696E67 810101 A129 300C 8005666F726365 A103 850100 300B 800474656D70 A103 850142 300C 8005666F726365 A103 850101
phase
# ReadJournal [65] without a filter: all four, in the order in which they were written. Each has its number in eight
# octets (80 08), the client that wrote it (A1 05 A1 03 02 01 and its number), and the entry under A2, without the 30
# that it was written with. The name of the event stands as its client gave it, also for client 2, whose own is
# another. 81 01 00: moreFollows is FALSE.
#: A0 confirmed-Request; 02 invokeID 2; BF41 readJournal; A0 journalName; 80 vmd-specific Log
2 A00D 020102 BF4107 A005 80034C6F67
# By tags (listOfVariables, A4): entries with a variable force, and of these the variables force alone, both of entry
# 4, with the event. An entry without such a variable, and a note, has none.
#: A0 confirmed-Request; 02 invokeID 3; BF41 readJournal; A0 journalName; 80 vmd-specific Log; A4 listOfVariables;
#:   1A VisibleString "force"
2 A016 020103 BF4110 A005 80034C6F67 A407 1A05666F726365
phase
# From a time on (rangeStartSpecification, A1, with startingTime, 80): entries of 08:00:01.500 or later. Where an
# entry stands doesn't count, its time does.
#: A0 confirmed-Request; 02 invokeID 4; BF41 readJournal; A0 journalName; 80 vmd-specific Log;
#:   A1 rangeStartSpecification; 80 startingTime 08:00:01.500, day 15674
1 A017 020104 BF4111 A005 80034C6F67 A108 800601B779DC3D3A
# From a number on (startingEntry, 81 08).
#: A0 confirmed-Request; 02 invokeID 5; BF41 readJournal; A0 journalName; 80 vmd-specific Log;
#:   A1 rangeStartSpecification; 81 startingEntry 3
1 A019 020105 BF4113 A005 80034C6F67 A10A 81080000000000000003
# Up to a time (rangeStopSpecification, A2, with endingTime, 80): those of 08:00:01.000 or earlier.
#: A0 confirmed-Request; 02 invokeID 6; BF41 readJournal; A0 journalName; 80 vmd-specific Log;
#:   A2 rangeStopSpecification; 80 endingTime 08:00:01.000, day 15674
1 A017 020106 BF4111 A005 80034C6F67 A208 800601B777E83D3A
# So many (numberOfEntries, 81 01 01), after entry 1 (entryToStartAfter, A5: a time, which has no effect, and the
# number). Of those that are left it is the first, so it is entry 2.
#: A0 confirmed-Request; 02 invokeID 7; BF41 readJournal; A0 journalName; 80 vmd-specific Log;
#:   A2 rangeStopSpecification; 81 numberOfEntries 1; A5 entryToStartAfter;
#:   80 timeSpecification 08:00:00.000, day 15674; 81 entrySpecification 1
1 A026 020107 BF4120 A005 80034C6F67 A203 810101 A512 800601B774003D3A 81080000000000000001
phase
# Thirteen more at once, with neither event nor variables (A2 00). Now there are 17 entries.
#: A0 confirmed-Request; 02 invokeID 4; BF42 writeJournal; A0 journalName; 80 vmd-specific Log; A1 listOfJournalEntry;
#:   30 JournalContent; 80 occurrenceTime 08:00:03.000, day 15674; A2 data; 30 JournalContent;
#:   80 occurrenceTime 08:00:03.001, day 15674; A2 data; 30 JournalContent; 80 occurrenceTime 08:00:03.002, day 15674;
#:   A2 data; 30 JournalContent; 80 occurrenceTime 08:00:03.003, day 15674; A2 data; 30 JournalContent;
#:   80 occurrenceTime 08:00:03.004, day 15674; A2 data; 30 JournalContent; 80 occurrenceTime 08:00:03.005, day 15674;
#:   A2 data; 30 JournalContent; 80 occurrenceTime 08:00:03.006, day 15674; A2 data; 30 JournalContent;
#:   80 occurrenceTime 08:00:03.007, day 15674; A2 data; 30 JournalContent; 80 occurrenceTime 08:00:03.008, day 15674;
#:   A2 data; 30 JournalContent; 80 occurrenceTime 08:00:03.009, day 15674; A2 data; 30 JournalContent;
#:   80 occurrenceTime 08:00:03.010, day 15674; A2 data; 30 JournalContent; 80 occurrenceTime 08:00:03.011, day 15674;
#:   A2 data; 30 JournalContent; 80 occurrenceTime 08:00:03.012, day 15674; A2 data
2 A081AD 020104 BF4281A6 A005 80034C6F67 A1819C 300A 800601B77FB83D3A A200 300A 800601B77FB93D3A A200 300A 800601B77FBA3D3A A200 300A 800601B77FBB3D3A A200 300A 800601B77FBC3D3A A200 300A 800601B77FBD3D3A A200 300A 800601B77FBE3D3A A200 300A 800601B77FBF3D3A A200 300A 800601B77FC03D3A A200 300A 800601B77FC13D3A A200 300A 800601B77FC23D3A A200 300A 800601B77FC33D3A A200 300A 800601B77FC43D3A A200
# An answer has 16 of them at most, and moreFollows is TRUE (81 01 FF).
#: A0 confirmed-Request; 02 invokeID 5; BF41 readJournal; A0 journalName; 80 vmd-specific Log
2 A00D 020105 BF4107 A005 80034C6F67
# The others are asked for by entryToStartAfter, with the last number that was told.
#: A0 confirmed-Request; 02 invokeID 6; BF41 readJournal; A0 journalName; 80 vmd-specific Log; A5 entryToStartAfter;
#:   80 timeSpecification 08:00:03.011, day 15674; 81 entrySpecification 16
2 A021 020106 BF411B A005 80034C6F67 A512 800601B77FC33D3A 81080000000000000010
phase
# InitializeJournal [67] with a limit (A1): entries of 08:00:01.500 or earlier and of number 2 or lower go; entry 3
# is as early and stays. The answer tells how many went: 9F43 01 02.
#: A0 confirmed-Request; 02 invokeID 8; BF43 initializeJournal; A0 journalName; 80 vmd-specific Log;
#:   A1 limitSpecification; 80 limitingTime 08:00:01.500, day 15674; 81 limitingEntry 2
1 A021 020108 BF431B A005 80034C6F67 A112 800601B779DC3D3A 81080000000000000002
# ReportJournalStatus [68]: 15 entries (80 01 0F), and that it can be deleted (81 01 FF).
#: A0 confirmed-Request; 02 invokeID 9; BF44 reportJournalStatus; 80 vmd-specific Log
1 A00B 020109 BF4405 80034C6F67
# Without a limit all go. Numbers go on: the next entry is 18.
#: A0 confirmed-Request; 02 invokeID 10; BF43 initializeJournal; A0 journalName; 80 vmd-specific Log
1 A00D 02010A BF4307 A005 80034C6F67
#: A0 confirmed-Request; 02 invokeID 11; BF42 writeJournal; A0 journalName; 80 vmd-specific Log;
#:   A1 listOfJournalEntry; 30 JournalContent; 80 occurrenceTime 08:01:00.000, day 15674; 83 annotation "cleared"
1 A022 02010B BF421C A005 80034C6F67 A113 3011 800601B85E603D3A 8307636C6561726564
#: A0 confirmed-Request; 02 invokeID 7; BF41 readJournal; A0 journalName; 80 vmd-specific Log
2 A00D 020107 BF4107 A005 80034C6F67
phase
# DeleteJournal [70]. Who reads it now is told that it is missing: access, object-non-existent (87 01 02).
#: A0 confirmed-Request; 02 invokeID 12; BF46 deleteJournal; A0 journalName; 80 vmd-specific Log
1 A00D 02010C BF4607 A005 80034C6F67
#: A0 confirmed-Request; 02 invokeID 8; BF41 readJournal; A0 journalName; 80 vmd-specific Log
2 A00D 020108 BF4107 A005 80034C6F67
#: 8B conclude-Request
1 8B00
#: 8B conclude-Request
2 8B00
