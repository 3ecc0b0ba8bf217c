mms-recording 1
config
clients = 1
# The cells are the unnamed variables of the device. This one is an integer of 32 bits (TypeSpecification 85 01 20), and
# holds 0.
[[cell]]
number = 0
type = "850120"
value = "850100"
# And this one is a truth value, TRUE.
[[cell]]
number = 1
type = "8300"
value = "8301FF"
# A name of the VMD for the first of them.
[[variable]]
name = "Speed"
cell = 0
end
# Variables: a client opens an association.
#: A8 initiate-Request; 80 localDetail 65000; 81 maxServOutstandingCalling 10; 82 maxServOutstandingCalled 10;
#:   83 dataStructureNestingLevel 5; A4 initDetail; 80 versionNumber 1; 81 parameterCBB str1, str2, vnam, valt, vlis;
#:   82 servicesSupported status, getNameList, identify, read, write, getVariableAccessAttributes,
#:   defineNamedVariableList, getNamedVariableListAttributes, deleteNamedVariableList, getDomainAttributes, kill,
#:   readJournal, writeJournal, initializeJournal, reportJournalStatus, getCapabilityList, fileOpen, fileRead,
#:   fileClose, fileDelete, fileDirectory, unsolicitedStatus, informationReport, conclude, cancel
1 A826 800300FDE8 81010A 82010A 830105 A416 800101 810305F100 820C03EE1C00000408000079EF18
# Read of Speed: integer 0.
#: A0 confirmed-Request; 02 invokeID 1; A4 read; A1 variableAccessSpecification; A0 listOfVariable; 30 VariableDef;
#:   A0 name; 80 vmd-specific Speed
1 A014 020101 A40F A10D A00B 3009 A007 80055370656564
# Write of 7 to Speed, of 8 to cell 1, which takes no integer, and of FALSE to it: success, type-inconsistent (7),
# success.
#: A0 confirmed-Request; 02 invokeID 2; A5 write; A0 listOfVariable; 30 VariableDef; A0 name; 80 vmd-specific Speed;
#:   30 VariableDef; A1 address; 80 numericAddress 1; 30 VariableDef; A1 address; 80 numericAddress 1; A0 listOfData;
#:   85 integer 7; 85 integer 8; 83 boolean FALSE
1 A02B 020102 A526 A019 3009 A007 80055370656564 3005 A103 800101 3005 A103 800101 A009 850107 850108 830100
# What Speed is: it can't be deleted, since it is configured; it is cell 0; it is an integer of 32 bits.
#: A0 confirmed-Request; 02 invokeID 3; A6 getVariableAccessAttributes; A0 name; 80 vmd-specific Speed
1 A00E 020103 A609 A007 80055370656564
# The name Flag for cell 1.
#: A0 confirmed-Request; 02 invokeID 4; A7 defineNamedVariable; A0 variableName; 80 vmd-specific Flag; A1 address;
#:   80 numericAddress 1
1 A012 020104 A70D A006 8004466C6167 A103 800101
# The same name once more: error, definition object-exists.
#: A0 confirmed-Request; 02 invokeID 5; A7 defineNamedVariable; A0 variableName; 80 vmd-specific Flag; A1 address;
#:   80 numericAddress 0
1 A012 020105 A70D A006 8004466C6167 A103 800100
# The names of variables (class 0) of the VMD: Flag and Speed, and no more follow.
#: A0 confirmed-Request; 02 invokeID 6; A1 getNameList; A0 objectClass; 80 basicObjectClass namedVariable (0);
#:   A1 objectScope; 80 vmdSpecific
1 A00E 020106 A109 A003 800100 A102 8000
# The list Both of Speed and Flag.
#: A0 confirmed-Request; 02 invokeID 7; AB defineNamedVariableList; 80 vmd-specific Both; A0 listOfVariable;
#:   30 VariableDef; A0 name; 80 vmd-specific Speed; 30 VariableDef; A0 name; 80 vmd-specific Flag
1 A022 020107 AB1D 8004426F7468 A015 3009 A007 80055370656564 3008 A006 8004466C6167
# Read of the list: 7 and FALSE.
#: A0 confirmed-Request; 02 invokeID 8; A4 read; A1 variableAccessSpecification; A1 variableListName;
#:   80 vmd-specific Both
1 A00F 020108 A40A A108 A106 8004426F7468
# Deletion of Flag and of Speed: two names match, and one of them is deleted, since Speed is configured.
#: A0 confirmed-Request; 02 invokeID 9; AA deleteVariableAccess; A1 listOfName; 80 vmd-specific Flag;
#:   80 vmd-specific Speed
1 A014 020109 AA0F A10D 8004466C6167 80055370656564
# The list keeps the name: object-non-existent (10) in its place.
#: A0 confirmed-Request; 02 invokeID 10; A4 read; A1 variableAccessSpecification; A1 variableListName;
#:   80 vmd-specific Both
1 A00F 02010A A40A A108 A106 8004426F7468
# What the list is: it can be deleted; Speed and Flag.
#: A0 confirmed-Request; 02 invokeID 11; AC getNamedVariableListAttributes; 80 vmd-specific Both
1 A00B 02010B AC06 8004426F7468
# Deletion of all lists of the VMD (scope 3): one matches, and is deleted.
#: A0 confirmed-Request; 02 invokeID 12; AD deleteNamedVariableList; 80 scopeOfDelete vmd (3)
1 A008 02010C AD03 800103
# Read of the list, which isn't there any more: error, access object-non-existent.
#: A0 confirmed-Request; 02 invokeID 13; A4 read; A1 variableAccessSpecification; A1 variableListName;
#:   80 vmd-specific Both
1 A00F 02010D A40A A108 A106 8004426F7468
# Data that nests to depth 6, where 5 was negotiated: reject, max-recursion-exceeded, with the invokeID 14.
#: A0 confirmed-Request; 02 invokeID 14; A5 write; A0 listOfVariable; 30 VariableDef; A1 address; 80 numericAddress 0;
#:   A0 listOfData; A2 structure; A2 structure; A2 structure; A2 structure; A2 structure; A2 structure;
#:   83 boolean FALSE
1 A01F 02010E A51A A007 3005 A103 800100 A00F A20D A20B A209 A207 A205 A203 830100
