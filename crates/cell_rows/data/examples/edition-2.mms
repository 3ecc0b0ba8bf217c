mms-recording 2
config
clients = 1
# The type and the value of a cell may have indefinite lengths: an array of two integers of 32 bits, which holds 0 and
# 7.
[[cell]]
number = 0
type = "A180810102A28085012000000000"
value = "A1808501008501070000"
# And a name may have 64 octets.
[[variable]]
name = "Boiler_2$Pressure_sensor_of_the_second_floor$Filtered$Value$bars"
cell = 0
end
# Edition 2: a client whose elements have indefinite lengths opens an association. What it is answered is definite.
#: A8 initiate-Request; 80 localDetail 65000; 81 maxServOutstandingCalling 10; 82 maxServOutstandingCalled 10;
#:   83 dataStructureNestingLevel 5; A4 initDetail; 80 versionNumber 1; 81 parameterCBB str1, str2, vnam, valt, vlis;
#:   82 servicesSupported status, getNameList, identify, read, write, getVariableAccessAttributes,
#:   defineNamedVariableList, getNamedVariableListAttributes, deleteNamedVariableList, getDomainAttributes, kill,
#:   readJournal, writeJournal, initializeJournal, reportJournalStatus, getCapabilityList, fileOpen, fileRead,
#:   fileClose, fileDelete, fileDirectory, unsolicitedStatus, informationReport, conclude, cancel
1 A880 800300FDE8 81010A 82010A 830105 A480 800101 810305F100 820C03EE1C00000408000079EF18 0000 0000
# Status, as a definite one is answered.
#: A0 confirmed-Request; 02 invokeID 1; 80 status FALSE
1 A080 020101 800100 0000
# The names of variables of the VMD: one of 64 octets.
#: A0 confirmed-Request; 02 invokeID 2; A1 getNameList; A0 objectClass; 80 basicObjectClass namedVariable (0);
#:   A1 objectScope; 80 vmdSpecific
1 A080 020102 A180 A080 800100 0000 A180 8000 0000 0000 0000
# Its type: an array of two integers, told with definite lengths.
#: A0 confirmed-Request; 02 invokeID 3; A6 getVariableAccessAttributes; A0 name;
#:   80 vmd-specific Boiler_2$Pressure_sensor_of_the_second_floor$Filtered$Value$bars
1 A080 020103 A680 A080 8040426F696C65725F322450726573737572655F73656E736F725F6F665F7468655F7365636F6E645F666C6F6F722446696C74657265642456616C75652462617273 0000 0000 0000
# Write of 7 and 8 to it, and Read of it. Definite lengths may stand between indefinite ones.
#: A0 confirmed-Request; 02 invokeID 4; A5 write; A0 listOfVariable; 30 VariableDef; A0 name;
#:   80 vmd-specific Boiler_2$Pressure_sensor_of_the_second_floor$Filtered$Value$bars; A0 listOfData; A1 array;
#:   85 integer 7; 85 integer 8
1 A080 020104 A580 A080 3080 A080 8040426F696C65725F322450726573737572655F73656E736F725F6F665F7468655F7365636F6E645F666C6F6F722446696C74657265642456616C75652462617273 0000 0000 0000 A080 A180 850107 850108 0000 0000 0000 0000
#: A0 confirmed-Request; 02 invokeID 5; A4 read; A1 variableAccessSpecification; A0 listOfVariable; 30 VariableDef;
#:   A0 name; 80 vmd-specific Boiler_2$Pressure_sensor_of_the_second_floor$Filtered$Value$bars
1 A059 020105 A480 A180 A080 3080 A080 8040426F696C65725F322450726573737572655F73656E736F725F6F665F7468655F7365636F6E645F666C6F6F722446696C74657265642456616C75652462617273 0000 0000 0000 0000 0000
# An element that doesn't end: no PDU.
#: A0 confirmed-Request <-- an indefinite length that does not end
1 A08002010680010000
# A primitive element, here a conclude-Request, has no indefinite length.
#: 8B conclude-Request <-- an indefinite length, which no primitive element has
1 8B800000
# A name of 65 octets: invalid-argument.
#: A0 confirmed-Request; 02 invokeID 7; B7 reportSemaphoreStatus;
#:   80 vmd-specific Boiler_2$Pressure_sensor_of_the_second_floor$Filtered$Value$barss
1 A048 020107 B743 8041426F696C65725F322450726573737572655F73656E736F725F6F665F7468655F7365636F6E645F666C6F6F722446696C74657265642456616C7565246261727373
# The client concludes.
#: 8B conclude-Request
1 8B00
