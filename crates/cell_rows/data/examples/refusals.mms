mms-recording 1
config
clients = 1
end
# What a device refuses of an open association's client, in the order in which the refusals apply.
#: A8 initiate-Request; 80 localDetail 65000; 81 maxServOutstandingCalling 10; 82 maxServOutstandingCalled 10;
#:   83 dataStructureNestingLevel 5; A4 initDetail; 80 versionNumber 1; 81 parameterCBB str1, str2, vnam, valt, vlis;
#:   82 servicesSupported status, getNameList, identify, read, write, getVariableAccessAttributes,
#:   defineNamedVariableList, getNamedVariableListAttributes, deleteNamedVariableList, getDomainAttributes, kill,
#:   readJournal, writeJournal, initializeJournal, reportJournalStatus, getCapabilityList, fileOpen, fileRead,
#:   fileClose, fileDelete, fileDirectory, unsolicitedStatus, informationReport, conclude, cancel
1 A826 800300FDE8 81010A 82010A 830105 A416 800101 810305F100 820C03EE1C00000408000079EF18
# Not one whole element: reject, pdu-error invalid-pdu.
#: A0 confirmed-Request <-- there is no length
1 A0
# No PDU of MMS: reject, pdu-error unknown-pdu-type.
#: AE ? not in the table
1 AE00
# A PDU that only a server sends: reject, pdu-error invalid-pdu.
#: 8C conclude-Response
1 8C00
# A list of modifiers: reject, unrecognized-modifier, with the invokeID 1.
#: A0 confirmed-Request; 02 invokeID 1; 30 listOfModifier; 80 status FALSE
1 A008 020101 3000 800100
# Rename, which isn't offered: reject, unrecognized-service, with the invokeID 7.
#: A0 confirmed-Request; 02 invokeID 7; 83 rename
1 A005 020107 8300
# Status, whose BOOLEAN has no octet: reject, invalid-argument.
#: A0 confirmed-Request; 02 invokeID 1; 80 status (no octet)
1 A005 020101 8000
# A cancel of what doesn't wait: cancel-Error, invoke-id-unknown.
#: 85 cancel-Request 9
1 850109
# An unconfirmed PDU gives nothing.
#: A3 unconfirmed
1 A300
