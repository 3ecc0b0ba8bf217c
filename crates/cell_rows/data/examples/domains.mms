mms-recording 1
config
clients = 2
end
# Two clients open an association. The second takes PDUs of at most 512 octets (02 00).
#: A8 initiate-Request; 80 localDetail 65000; 81 maxServOutstandingCalling 10; 82 maxServOutstandingCalled 10;
#:   83 dataStructureNestingLevel 5; A4 initDetail; 80 versionNumber 1; 81 parameterCBB str1, str2, vnam, valt, vlis;
#:   82 servicesSupported status, getNameList, identify, read, write, getVariableAccessAttributes,
#:   defineNamedVariableList, getNamedVariableListAttributes, deleteNamedVariableList, getDomainAttributes, kill,
#:   readJournal, writeJournal, initializeJournal, reportJournalStatus, getCapabilityList, fileOpen, fileRead,
#:   fileClose, fileDelete, fileDirectory, unsolicitedStatus, informationReport, conclude, cancel
1 A826 800300FDE8 81010A 82010A 830105 A416 800101 810305F100 820C03EE1C00000408000079EF18
#: A8 initiate-Request; 80 localDetail 512; 81 maxServOutstandingCalling 10; 82 maxServOutstandingCalled 10;
#:   83 dataStructureNestingLevel 5; A4 initDetail; 80 versionNumber 1; 81 parameterCBB str1, str2, vnam, valt, vlis;
#:   82 servicesSupported status, getNameList, identify, read, write, getVariableAccessAttributes,
#:   defineNamedVariableList, getNamedVariableListAttributes, deleteNamedVariableList, getDomainAttributes, kill,
#:   readJournal, writeJournal, initializeJournal, reportJournalStatus, getCapabilityList, fileOpen, fileRead,
#:   fileClose, fileDelete, fileDirectory, unsolicitedStatus, informationReport, conclude, cancel
2 A825 80020200 81010A 82010A 830105 A416 800101 810305F100 820C03EE1C00000408000079EF18
phase
# InitiateDownloadSequence [26]: the first client loads Prog, without capabilities, sharable (FF). It is answered by
# NULL, and behind that the server asks for the first segment: DownloadSegment [27] of Prog, its own request 1.
#: A0 confirmed-Request; 02 invokeID 1; BA initiateDownloadSequence; 80 domainName Prog; A1 listOfCapabilities;
#:   82 sharable TRUE
1 A010 020101 BA0B 800450726F67 A100 8201FF
phase
# The segment is the answer to that request: 256 octets, and more follow, as is meant where it isn't said. The server
# asks for the next one. GetDomainAttributes [37] by the second client: Prog is LOADING (state 1).
#: A1 confirmed-Response; 02 invokeID 1; BB downloadSegment;
#:   80 loadData 00 01 02 03 04 05 06 07 08 09 0A 0B 0C 0D 0E 0F 10 11 12 13 14 15 16 17 18 19 1A 1B 1C 1D 1E 1F 20 21
#:   22 23 24 25 26 27 28 29 2A 2B 2C 2D 2E 2F 30 31 32 33 34 35 36 37 38 39 3A 3B 3C 3D 3E 3F 40 41 42 43 44 45 46 47
#:   48 49 4A 4B 4C 4D 4E 4F 50 51 52 53 54 55 56 57 58 59 5A 5B 5C 5D 5E 5F 60 61 62 63 64 65 66 67 68 69 6A 6B 6C 6D
#:   6E 6F 70 71 72 73 74 75 76 77 78 79 7A 7B 7C 7D 7E 7F 80 81 82 83 84 85 86 87 88 89 8A 8B 8C 8D 8E 8F 90 91 92 93
#:   94 95 96 97 98 99 9A 9B 9C 9D 9E 9F A0 A1 A2 A3 A4 A5 A6 A7 A8 A9 AA AB AC AD AE AF B0 B1 B2 B3 B4 B5 B6 B7 B8 B9
#:   BA BB BC BD BE BF C0 C1 C2 C3 C4 C5 C6 C7 C8 C9 CA CB CC CD CE CF D0 D1 D2 D3 D4 D5 D6 D7 D8 D9 DA DB DC DD DE DF
#:   E0 E1 E2 E3 E4 E5 E6 E7 E8 E ..
1 A182010B 020101 BB820104 80820100000102030405060708090A0B0C0D0E0F101112131415161718191A1B1C1D1E1F202122232425262728292A2B2C2D2E2F303132333435363738393A3B3C3D3E3F404142434445464748494A4B4C4D4E4F505152535455565758595A5B5C5D5E5F606162636465666768696A6B6C6D6E6F707172737475767778797A7B7C7D7E7F808182838485868788898A8B8C8D8E8F909192939495969798999A9B9C9D9E9FA0A1A2A3A4A5A6A7A8A9AAABACADAEAFB0B1B2B3B4B5B6B7B8B9BABBBCBDBEBFC0C1C2C3C4C5C6C7C8C9CACBCCCDCECFD0D1D2D3D4D5D6D7D8D9DADBDCDDDEDFE0E1E2E3E4E5E6E7E8E9EAEBECEDEEEFF0F1F2F3F4F5F6F7F8F9FAFBFCFDFEFF
#: A0 confirmed-Request; 02 invokeID 1; 9F25 getDomainAttributes Prog
2 A00A 020101 9F250450726F67
phase
# 200 octets, and no more follow (00): the server asks to end the load, TerminateDownloadSequence [28], its request 3.
# Until that is answered Prog is LOADING, and can't be uploaded: object-state-conflict (84 01 02).
#: A1 confirmed-Response; 02 invokeID 2; BB downloadSegment;
#:   80 loadData 00 01 02 03 04 05 06 07 08 09 0A 0B 0C 0D 0E 0F 10 11 12 13 14 15 16 17 18 19 1A 1B 1C 1D 1E 1F 20 21
#:   22 23 24 25 26 27 28 29 2A 2B 2C 2D 2E 2F 30 31 32 33 34 35 36 37 38 39 3A 3B 3C 3D 3E 3F 40 41 42 43 44 45 46 47
#:   48 49 4A 4B 4C 4D 4E 4F 50 51 52 53 54 55 56 57 58 59 5A 5B 5C 5D 5E 5F 60 61 62 63 64 65 66 67 68 69 6A 6B 6C 6D
#:   6E 6F 70 71 72 73 74 75 76 77 78 79 7A 7B 7C 7D 7E 7F 80 81 82 83 84 85 86 87 88 89 8A 8B 8C 8D 8E 8F 90 91 92 93
#:   94 95 96 97 98 99 9A 9B 9C 9D 9E 9F A0 A1 A2 A3 A4 A5 A6 A7 A8 A9 AA AB AC AD AE AF B0 B1 B2 B3 B4 B5 B6 B7 B8 B9
#:   BA BB BC BD BE BF C0 C1 C2 C3 C4 C5 C6 C7; 81 moreFollows FALSE
1 A181D4 020102 BB81CE 8081C8000102030405060708090A0B0C0D0E0F101112131415161718191A1B1C1D1E1F202122232425262728292A2B2C2D2E2F303132333435363738393A3B3C3D3E3F404142434445464748494A4B4C4D4E4F505152535455565758595A5B5C5D5E5F606162636465666768696A6B6C6D6E6F707172737475767778797A7B7C7D7E7F808182838485868788898A8B8C8D8E8F909192939495969798999A9B9C9D9E9FA0A1A2A3A4A5A6A7A8A9AAABACADAEAFB0B1B2B3B4B5B6B7B8B9BABBBCBDBEBFC0C1C2C3C4C5C6C7 810100
#: A0 confirmed-Request; 02 invokeID 2; 9D initiateUploadSequence Prog
2 A009 020102 9D0450726F67
phase
# The answer, NULL. Prog is READY. InitiateUploadSequence [29] by the second client is answered with the number of the
# upload, 1, and the capabilities, none.
#: A1 confirmed-Response; 02 invokeID 3; 9C terminateDownloadSequence
1 A105 020103 9C00
#: A0 confirmed-Request; 02 invokeID 3; 9D initiateUploadSequence Prog
2 A009 020103 9D0450726F67
phase
# UploadSegment [30] of upload 1: the octets of both segments joined, in pieces of 448, as a PDU of 512 takes them. More
# follow the first (FF), and none the second (00). A third one is refused: object-state-conflict.
#: A0 confirmed-Request; 02 invokeID 4; 9E uploadSegment 1
2 A006 020104 9E0101
#: A0 confirmed-Request; 02 invokeID 5; 9E uploadSegment 1
2 A006 020105 9E0101
#: A0 confirmed-Request; 02 invokeID 6; 9E uploadSegment 1
2 A006 020106 9E0101
phase
# DeleteDomain [36] is refused while an upload of Prog is open: object-constraint-conflict (84 01 05). Its attributes:
# READY (2), one upload (01). Conclude is refused to the client whose upload it is.
#: A0 confirmed-Request; 02 invokeID 2; 9F24 deleteDomain Prog
1 A00A 020102 9F240450726F67
#: A0 confirmed-Request; 02 invokeID 3; 9F25 getDomainAttributes Prog
1 A00A 020103 9F250450726F67
#: 8B conclude-Request
2 8B00
phase
# The first client begins a second load, of D1, and is lost while the server waits for the next segment: D1 is gone.
#: A0 confirmed-Request; 02 invokeID 4; BA initiateDownloadSequence; 80 domainName D1; A1 listOfCapabilities;
#:   82 sharable TRUE
1 A00E 020104 BA09 80024431 A100 820101
#: A1 confirmed-Response; 02 invokeID 4; BB downloadSegment; 80 loadData AA BB
1 A109 020104 BB04 8002AABB
lost 1
#: A0 confirmed-Request; 02 invokeID 7; 9F25 getDomainAttributes D1
2 A008 020107 9F25024431
phase
# TerminateUploadSequence [31]; then Prog is deleted, and the association concluded.
#: A0 confirmed-Request; 02 invokeID 8; 9F1F terminateUploadSequence 1
2 A007 020108 9F1F0101
#: A0 confirmed-Request; 02 invokeID 9; 9F24 deleteDomain Prog
2 A00A 020109 9F240450726F67
#: 8B conclude-Request
2 8B00
