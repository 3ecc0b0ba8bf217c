mms-recording 1
config
clients = 1
end
# A client opens an association, and loads two domains of one segment each: Main, which programs may share (82 01 FF),
# and Tool, which they may not (82 01 00).
#: A8 initiate-Request; 80 localDetail 65000; 81 maxServOutstandingCalling 10; 82 maxServOutstandingCalled 10;
#:   83 dataStructureNestingLevel 5; A4 initDetail; 80 versionNumber 1; 81 parameterCBB str1, str2, vnam, valt, vlis;
#:   82 servicesSupported status, getNameList, identify, read, write, getVariableAccessAttributes,
#:   defineNamedVariableList, getNamedVariableListAttributes, deleteNamedVariableList, getDomainAttributes, kill,
#:   readJournal, writeJournal, initializeJournal, reportJournalStatus, getCapabilityList, fileOpen, fileRead,
#:   fileClose, fileDelete, fileDirectory, unsolicitedStatus, informationReport, conclude, cancel
1 A826 800300FDE8 81010A 82010A 830105 A416 800101 810305F100 820C03EE1C00000408000079EF18
#: A0 confirmed-Request; 02 invokeID 1; BA initiateDownloadSequence; 80 domainName Main; A1 listOfCapabilities;
#:   82 sharable TRUE
1 A010 020101 BA0B 80044D61696E A100 8201FF
#: A1 confirmed-Response; 02 invokeID 1; BB downloadSegment; 80 loadData AA BB; 81 moreFollows FALSE
1 A10C 020101 BB07 8002AABB 810100
#: A1 confirmed-Response; 02 invokeID 2; 9C terminateDownloadSequence
1 A105 020102 9C00
#: A0 confirmed-Request; 02 invokeID 2; BA initiateDownloadSequence; 80 domainName Tool; A1 listOfCapabilities;
#:   82 sharable FALSE
1 A010 020102 BA0B 8004546F6F6C A100 820100
#: A1 confirmed-Response; 02 invokeID 3; BB downloadSegment; 80 loadData CC; 81 moreFollows FALSE
1 A10B 020103 BB06 8001CC 810100
#: A1 confirmed-Response; 02 invokeID 4; 9C terminateDownloadSequence
1 A105 020104 9C00
phase
# CreateProgramInvocation [38]: the program P is made of Main and Tool. It is reusable, as is meant where it isn't said.
# The domains are IN-USE: GetDomainAttributes [37] of Tool tells state 3 and the name P. No other program may have Tool:
# object-constraint-conflict (84 01 05).
#: A0 confirmed-Request; 02 invokeID 3; BF26 createProgramInvocation; 80 programInvocationName P; A1 listOfDomainName;
#:   1A Identifier Main; 1A Identifier Tool
1 A017 020103 BF2611 800150 A10C 1A044D61696E 1A04546F6F6C
#: A0 confirmed-Request; 02 invokeID 4; 9F25 getDomainAttributes Tool
1 A00A 020104 9F2504546F6F6C
#: A0 confirmed-Request; 02 invokeID 5; BF26 createProgramInvocation; 80 programInvocationName Q; A1 listOfDomainName;
#:   1A Identifier Tool
1 A011 020105 BF260B 800151 A106 1A04546F6F6C
phase
# Start [40] with the argument "fast". GetProgramInvocationAttributes [45]: running (80 01 03), its domains as they were
# given, and the argument.
#: A0 confirmed-Request; 02 invokeID 6; BF28 start; 80 programInvocationName P; 81 executionArgument "fast"
1 A00F 020106 BF2809 800150 810466617374
#: A0 confirmed-Request; 02 invokeID 7; 9F2D getProgramInvocationAttributes P
1 A007 020107 9F2D0150
phase
# Stop [41]. A second Stop is refused: object-state-conflict (84 01 02), and behind that the state, as Stop tells it
# (82): stopped (04).
#: A0 confirmed-Request; 02 invokeID 8; BF29 stop; 80 programInvocationName P
1 A009 020108 BF2903 800150
#: A0 confirmed-Request; 02 invokeID 9; BF29 stop; 80 programInvocationName P
1 A009 020109 BF2903 800150
phase
# Resume [42] without an argument: what P was told stays.
#: A0 confirmed-Request; 02 invokeID 10; BF2A resume; 80 programInvocationName P
1 A009 02010A BF2A03 800150
#: A0 confirmed-Request; 02 invokeID 11; 9F2D getProgramInvocationAttributes P
1 A007 02010B 9F2D0150
phase
# P ends by itself, and is idle (80 01 02). So Reset [43] is refused, with that state. P is deleted only where it
# doesn't run.
ends P
#: A0 confirmed-Request; 02 invokeID 12; 9F2D getProgramInvocationAttributes P
1 A007 02010C 9F2D0150
#: A0 confirmed-Request; 02 invokeID 13; BF2B reset; 80 programInvocationName P
1 A009 02010D BF2B03 800150
phase
# DeleteDomain [36] of Main is refused, as P has it. DeleteProgramInvocation [39]; Main is READY again (state 2), and is
# deleted.
#: A0 confirmed-Request; 02 invokeID 14; 9F24 deleteDomain Main
1 A00A 02010E 9F24044D61696E
#: A0 confirmed-Request; 02 invokeID 15; 9F27 deleteProgramInvocation P
1 A007 02010F 9F270150
#: A0 confirmed-Request; 02 invokeID 16; 9F25 getDomainAttributes Main
1 A00A 020110 9F25044D61696E
#: A0 confirmed-Request; 02 invokeID 17; 9F24 deleteDomain Main
1 A00A 020111 9F24044D61696E
#: 8B conclude-Request
1 8B00
