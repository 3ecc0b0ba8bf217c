"""The forms of MMS (ISO 9506-2) as a table, and what the elements of a PDU are by it.

The table is read by people too. `name: [n] T` is a component with the context tag n, `?` behind it says that it may be
missing. `{ .. }` is a SEQUENCE, `* T` a SEQUENCE OF, `< a | b >` a CHOICE; a tag before a CHOICE is explicit, any other
is implicit, but for `^`, which says explicit. `=> ` parts what a service asks with from what it is answered with. The
forms are those of docs/PROFILE.md, wider where captures of other devices are: unknown elements are shown as they are.
"""

import math
import re
import struct
import time
from dataclasses import dataclass, field
from functools import cached_property, lru_cache
from typing import Dict, Iterator, List, Optional, Tuple, Union

from .ber import Element, elements, integer

TYPES = """
Name = < vmd-specific: [0] Id | domain-specific: [1] { domainId: Id, itemId: Id } | aa-specific: [2] Id >
Address = < numericAddress: [0] INTEGER | symbolicAddress: [1] VisibleString | unconstrainedAddress: [2] OCTETS >
Variable = < name: [0] Name | address: [1] Address | variableDescription: [2] ANY | scatteredAccess: [3] ANY >
VariableDef = { variableSpecification: Variable, alternateAccess: [5] ANY ? }
Access = < listOfVariable: [0] * VariableDef | variableListName: [1] Name >
Data = < array: [1] * Data | structure: [2] * Data | boolean: [3] BOOLEAN | bit-string: [4] BITS | integer: [5]
    INTEGER | unsigned: [6] INTEGER | floating-point: [7] FLOAT | octet-string: [9] OCTETS | visible-string: [10]
    VisibleString | generalized-time: [11] VisibleString | binary-time: [12] TIME | bcd: [13] INTEGER | booleanArray:
    [14] BITS | objId: [15] OCTETS | mMSString: [16] UTF8 | utc-time: [17] UTC >
Type = < typeName: [0] Name | array: [1] { packed: [0] BOOLEAN ?, numberOfElements: [1] INTEGER, elementType: [2] Type
    } | structure: [2] { packed: [0] BOOLEAN ?, components: [1] * { componentName: [0] Id ?, componentType: [1] Type }
    } | boolean: [3] NULL | bit-string: [4] INTEGER | integer: [5] INTEGER | unsigned: [6] INTEGER | floating-point:
    [7] { format-width: INTEGER, exponent-width: INTEGER } | octet-string: [9] INTEGER | visible-string: [10] INTEGER
    | generalized-time: [11] NULL | binary-time: [12] BOOLEAN | bcd: [13] INTEGER | objId: [15] NULL | mMSString: [16]
    INTEGER | utc-time: [17] NULL >
AccessResult = < failure: [0] DataAccessError | array: [1] * Data | structure: [2] * Data | boolean: [3] BOOLEAN |
    bit-string: [4] BITS | integer: [5] INTEGER | unsigned: [6] INTEGER | floating-point: [7] FLOAT | octet-string:
    [9] OCTETS | visible-string: [10] VisibleString | generalized-time: [11] VisibleString | binary-time: [12] TIME |
    bcd: [13] INTEGER | booleanArray: [14] BITS | objId: [15] OCTETS | mMSString: [16] UTF8 | utc-time: [17] UTC >
Application = { ap-title: [0] ANY ?, ap-invocation-id: [1] ^ INTEGER ?, ae-qualifier: [2] ANY ?, ae-invocation-id: [3]
    ^ INTEGER ? }
EventTime = < time: [0] TIME | sequence: [1] INTEGER | undefined: [2] NULL >
Deletion = { scopeOfDelete: [0] ScopeOfDelete ?, listOfName: [1] * Name ?, domainName: [2] Id ? }
Deleted = { numberMatched: [0] INTEGER, numberDeleted: [1] INTEGER }
Take = { semaphoreName: [0] Name, namedToken: [1] Id ?, priority: [2] INTEGER ?, acceptableDelay: [3] MS ?,
    controlTimeOut: [4] MS ?, abortOnTimeOut: [5] BOOLEAN ?, relinquishIfConnectionLost: [6] BOOLEAN ?,
    applicationToPreempt: [7] Application ? }
Starting = { programInvocationName: [0] Id, executionArgument: [1] VisibleString ? }
Commanded = { programInvocationName: [0] Id }
JournalContent = { occurrenceTime: [0] TIME, data: [2] { event: [0] { eventConditionName: [0] Name, currentState: [1]
    ConditionState } ?, listOfVariables: [1] * { variableTag: [0] VisibleString, valueSpecification: [1] Data } ? } ?,
    annotation: [3] VisibleString ? }
ServiceError = { errorClass: [0] < vmd-state: [0] INTEGER | application-reference: [1] INTEGER | definition: [2]
    INTEGER | resource: [3] INTEGER | service: [4] INTEGER | service-preempt: [5] INTEGER | time-resolution: [6]
    INTEGER | access: [7] INTEGER | initiate: [8] INTEGER | conclude: [9] INTEGER | cancel: [10] INTEGER | file: [11]
    INTEGER | others: [12] INTEGER >, additionalCode: [1] INTEGER ?, additionalDescription: [2] VisibleString ?,
    serviceSpecificInformation: [3] < obtainFile: [0] INTEGER | start: [1] InvocationState | stop: [2] InvocationState
    | resume: [3] InvocationState | reset: [4] InvocationState | any: [5] ANY > ? }
Initiate = { localDetail: [0] INTEGER ?, maxServOutstandingCalling: [1] INTEGER, maxServOutstandingCalled: [2]
    INTEGER, dataStructureNestingLevel: [3] INTEGER ?, initDetail: [4] { versionNumber: [0] INTEGER, parameterCBB: [1]
    PARAMETERS, servicesSupported: [2] SERVICES } }
Modifier = < attachToEventCondition: [0] ANY | attachToSemaphore: [1] Take >
"""

SERVICES = """
0 status: BOOLEAN => { vmdLogicalStatus: [0] LogicalStatus, vmdPhysicalStatus: [1] PhysicalStatus, localDetail: [2]
    BITS ? }
1 getNameList: { objectClass: [0] < basicObjectClass: [0] ObjectClass >, objectScope: [1] < vmdSpecific: [0] NULL |
    domainSpecific: [1] Id | aaSpecific: [2] NULL >, continueAfter: [2] Id ? } => { listOfIdentifier: [0] * Id,
    moreFollows: [1] BOOLEAN ? }
2 identify: NULL => { vendorName: [0] VisibleString, modelName: [1] VisibleString, revision: [2] VisibleString,
    listOfAbstractSyntaxes: [3] ANY ? }
3 rename: ANY => NULL
4 read: { specificationWithResult: [0] BOOLEAN ?, variableAccessSpecification: [1] Access } => {
    variableAccessSpecification: [0] Access ?, listOfAccessResult: [1] * AccessResult }
5 write: { variableAccessSpecification: Access, listOfData: [0] * Data } => * < failure: [0] DataAccessError |
    success: [1] NULL >
6 getVariableAccessAttributes: Variable => { mmsDeletable: [0] BOOLEAN, address: [1] Address ?, typeSpecification: [2]
    Type }
7 defineNamedVariable: { variableName: [0] Name, address: [1] Address, typeSpecification: [2] Type ? } => NULL
10 deleteVariableAccess: Deletion => Deleted
11 defineNamedVariableList: { variableListName: Name, listOfVariable: [0] * VariableDef } => NULL
12 getNamedVariableListAttributes: Name => { mmsDeletable: [0] BOOLEAN, listOfVariable: [1] * VariableDef }
13 deleteNamedVariableList: Deletion => Deleted
19 takeControl: Take => < noResult: [0] NULL | namedToken: [1] Id >
20 relinquishControl: { semaphoreName: [0] Name, namedToken: [1] Id ? } => NULL
21 defineSemaphore: { semaphoreName: [0] Name, numberOfTokens: [1] INTEGER } => NULL
22 deleteSemaphore: Name => NULL
23 reportSemaphoreStatus: Name => { mmsDeletable: [0] BOOLEAN, class: [1] SemaphoreClass, numberOfTokens: [2] INTEGER,
    numberOfOwnedTokens: [3] INTEGER, numberOfHungTokens: [4] INTEGER }
24 reportPoolSemaphoreStatus: { semaphoreName: [0] Name, nameToStartAfter: [1] Id ? } => { listOfNamedTokens: [0] * <
    freeNamedToken: [0] Id | ownedNamedToken: [1] Id | hungNamedToken: [2] Id >, moreFollows: [1] BOOLEAN ? }
25 reportSemaphoreEntryStatus: { semaphoreName: [0] Name, state: [1] EntryState, entryIDToStartAfter: [2] NUMBER ? }
    => { listOfSemaphoreEntry: [0] * { entryID: [0] NUMBER, entryClass: [1] EntryClass, applicationReference: [2]
    Application, namedToken: [3] Id ?, priority: [4] INTEGER ?, remainingTimeOut: [5] MS ?, abortOnTimeOut: [6]
    BOOLEAN ?, relinquishIfConnectionLost: [7] BOOLEAN ? }, moreFollows: [1] BOOLEAN ? }
26 initiateDownloadSequence: { domainName: [0] Id, listOfCapabilities: [1] * VisibleString, sharable: [2] BOOLEAN } =>
    NULL
27 downloadSegment: Id => { loadData: [0] OCTETS, moreFollows: [1] BOOLEAN ? }
28 terminateDownloadSequence: { domainName: [0] Id, discard: [1] ServiceError ? } => NULL
29 initiateUploadSequence: Id => { ulsmID: [0] INTEGER, listOfCapabilities: [1] * VisibleString }
30 uploadSegment: INTEGER => { loadData: [0] OCTETS, moreFollows: [1] BOOLEAN ? }
31 terminateUploadSequence: INTEGER => NULL
36 deleteDomain: Id => NULL
37 getDomainAttributes: Id => { listOfCapabilities: [0] * VisibleString, state: [1] DomainState, mmsDeletable: [2]
    BOOLEAN, sharable: [3] BOOLEAN, listOfProgramInvocations: [4] * Id, uploadInProgress: [5] INTEGER }
38 createProgramInvocation: { programInvocationName: [0] Id, listOfDomainName: [1] * Id, reusable: [2] BOOLEAN ? } =>
    NULL
39 deleteProgramInvocation: Id => NULL
40 start: Starting => NULL
41 stop: Commanded => NULL
42 resume: Starting => NULL
43 reset: Commanded => NULL
44 kill: Commanded => NULL
45 getProgramInvocationAttributes: Id => { state: [0] InvocationState, listOfDomainName: [1] * Id, mmsDeletable: [2]
    BOOLEAN, reusable: [3] BOOLEAN, monitor: [4] BOOLEAN, executionArgument: [5] VisibleString }
47 defineEventCondition: { eventConditionName: [0] Name, class: [1] ConditionClass, priority: [2] INTEGER ?, severity:
    [3] INTEGER ?, alarmSummaryReports: [4] BOOLEAN ?, monitoredVariable: [6] Variable ?, evaluationInterval: [7] MS ?
    } => NULL
48 deleteEventCondition: < specific: [0] * Name > => INTEGER
50 reportEventConditionStatus: Name => { currentState: [0] ConditionState, numberOfEventEnrollments: [1] INTEGER,
    enabled: [2] BOOLEAN, timeOfLastTransitionToActive: [3] EventTime ?, timeOfLastTransitionToIdle: [4] EventTime ? }
51 alterEventConditionMonitoring: { eventConditionName: [0] Name, enabled: [1] BOOLEAN ?, priority: [2] INTEGER ?,
    alarmSummaryReports: [3] BOOLEAN ?, evaluationInterval: [4] MS ? } => NULL
52 triggerEvent: { eventConditionName: [0] Name, priority: [1] INTEGER ? } => NULL
57 defineEventEnrollment: { eventEnrollmentName: [0] Name, eventConditionName: [1] Name, eventConditionTransitions:
    [2] TRANSITIONS, alarmAcknowledgementRule: [3] AckRule } => NULL
58 deleteEventEnrollment: < specific: [0] * Name | eventConditionName: [1] Name > => INTEGER
62 acknowledgeEventNotification: { eventEnrollmentName: [0] Name, acknowledgedState: [2] ConditionState,
    timeOfAcknowledgedTransition: [3] EventTime } => NULL
63 getAlarmSummary: { enrollmentsOnly: [0] BOOLEAN ?, activeAlarmsOnly: [1] BOOLEAN ?, acknowledgementFilter: [2]
    INTEGER ?, severityFilter: [3] { mostSevere: [0] INTEGER, leastSevere: [1] INTEGER } ?, continueAfter: [5] Name ?
    } => { listOfAlarmSummary: [0] * { eventConditionName: [0] Name, severity: [1] INTEGER, currentState: [2]
    ConditionState, unacknowledgedState: [3] INTEGER, timeOfLastTransitionToActive: [6] EventTime ?,
    timeOfLastTransitionToIdle: [7] EventTime ? }, moreFollows: [1] BOOLEAN ? }
65 readJournal: { journalName: [0] Name, rangeStartSpecification: [1] < startingTime: [0] TIME | startingEntry: [1]
    NUMBER > ?, rangeStopSpecification: [2] < endingTime: [0] TIME | numberOfEntries: [1] INTEGER > ?,
    listOfVariables: [4] * VisibleString ?, entryToStartAfter: [5] { timeSpecification: [0] TIME, entrySpecification:
    [1] NUMBER } ? } => { listOfJournalEntry: [0] * { entryIdentifier: [0] NUMBER, originatingApplication: [1]
    Application, entryContent: [2] JournalContent }, moreFollows: [1] BOOLEAN ? }
66 writeJournal: { journalName: [0] Name, listOfJournalEntry: [1] * JournalContent } => NULL
67 initializeJournal: { journalName: [0] Name, limitSpecification: [1] { limitingTime: [0] TIME, limitingEntry: [1]
    NUMBER ? } ? } => INTEGER
68 reportJournalStatus: Name => { currentEntries: [0] INTEGER, mmsDeletable: [1] BOOLEAN }
69 createJournal: { journalName: [0] Name } => NULL
70 deleteJournal: { journalName: [0] Name } => NULL
72 fileOpen: { fileName: [0] * GraphicString, initialPosition: [1] INTEGER } => { frsmID: [0] INTEGER, fileAttributes:
    [1] { sizeOfFile: [0] INTEGER, lastModified: [1] ANY ? } }
73 fileRead: INTEGER => { fileData: [0] OCTETS, moreFollows: [1] BOOLEAN ? }
74 fileClose: INTEGER => NULL
77 fileDirectory: ANY => ANY
"""

UNCONFIRMED = """
0 informationReport: { variableAccessSpecification: Access, listOfAccessResult: [0] * AccessResult }
1 unsolicitedStatus: { vmdLogicalStatus: [0] LogicalStatus, vmdPhysicalStatus: [1] PhysicalStatus, localDetail: [2]
    BITS ? }
2 eventNotification: { eventEnrollmentName: [0] Name, eventConditionName: [1] Name, severity: [2] INTEGER,
    currentState: [3] ConditionState ?, transitionTime: [4] EventTime }
"""

PDUS = """
0 confirmed-Request: { invokeID: INTEGER, listOfModifier: * Modifier ?, confirmedServiceRequest: REQUEST }
1 confirmed-Response: { invokeID: INTEGER, confirmedServiceResponse: RESPONSE }
2 confirmed-Error: { invokeID: [0] INTEGER, modifierPosition: [1] INTEGER ?, serviceError: [2] ServiceError }
3 unconfirmed: { unconfirmedService: UNCONFIRMED }
4 reject: { originalInvokeID: [0] INTEGER ?, confirmed-requestPDU: [1] RejectRequest ?, confirmed-responsePDU: [2]
    RejectOther ?, confirmed-errorPDU: [3] RejectOther ?, unconfirmedPDU: [4] RejectOther ?, pdu-error: [5] RejectPdu
    ?, cancel-requestPDU: [6] RejectOther ?, cancel-responsePDU: [7] RejectOther ?, cancel-errorPDU: [8] RejectOther
    ?, conclude-requestPDU: [9] RejectOther ?, conclude-responsePDU: [10] RejectOther ?, conclude-errorPDU: [11]
    RejectOther ? }
5 cancel-Request: INTEGER
6 cancel-Response: INTEGER
7 cancel-Error: { originalInvokeID: [0] INTEGER, serviceError: [1] ServiceError }
8 initiate-Request: Initiate
9 initiate-Response: Initiate
10 initiate-Error: ServiceError
11 conclude-Request: NULL
12 conclude-Response: NULL
13 conclude-Error: ServiceError
"""

NUMBERS = """
LogicalStatus 0 state-changes-allowed 1 no-state-changes-allowed 2 limited-services-permitted 3
    support-services-allowed
PhysicalStatus 0 operational 1 partially-operational 2 inoperable 3 needs-commissioning
ObjectClass 0 namedVariable 1 scatteredAccess 2 namedVariableList 3 namedType 4 semaphore 5 eventCondition 6
    eventAction 7 eventEnrollment 8 journal 9 domain 10 programInvocation 11 operatorStation
DataAccessError 0 object-invalidated 1 hardware-fault 2 temporarily-unavailable 3 object-access-denied 4
    object-undefined 5 invalid-address 6 type-unsupported 7 type-inconsistent 8 object-attribute-inconsistent 9
    object-access-unsupported 10 object-non-existent
ScopeOfDelete 0 specific 1 aa-specific 2 domain 3 vmd
SemaphoreClass 0 token 1 pool
EntryState 0 queued 1 owner 2 hung
EntryClass 0 simple 1 modifier
DomainState 1 loading 2 ready 3 in-use
InvocationState 1 unrunnable 2 idle 3 running 4 stopped
ConditionClass 0 network-triggered 1 monitored
ConditionState 0 disabled 1 idle 2 active
AckRule 0 none 1 simple 2 ack-active 3 ack-all
RejectRequest 0 other 1 unrecognized-service 2 unrecognized-modifier 3 invalid-invokeID 4 invalid-argument 5
    invalid-modifier 6 max-serv-outstanding-exceeded 8 max-recursion-exceeded 9 value-out-of-range
RejectPdu 0 unknown-pdu-type 1 invalid-pdu 2 illegal-acse-mapping
RejectOther 0 other 1 unrecognized-service 2 invalid-invokeID 3 invalid-result 5 max-recursion-exceeded 6
    value-out-of-range
vmd-state 0 other 1 vmd-state-conflict 2 vmd-operational-problem 3 domain-transfer-problem 4 state-machine-id-invalid
application-reference 0 other 1 application-unreachable 2 connection-lost 3 application-reference-invalid 4
    context-unsupported
definition 0 other 1 object-undefined 2 invalid-address 3 type-unsupported 4 type-inconsistent 5 object-exists 6
    object-attribute-inconsistent
resource 0 other 1 memory-unavailable 2 processor-resource-unavailable 3 mass-storage-unavailable 4
    capability-unavailable 5 capability-unknown
service 0 other 1 primitives-out-of-sequence 2 object-state-conflict 3 pdu-size 4 continuation-invalid 5
    object-constraint-conflict
service-preempt 0 other 1 timeout 2 deadlock 3 cancel
time-resolution 0 other 1 unsupportable-time-resolution
access 0 other 1 object-access-unsupported 2 object-non-existent 3 object-access-denied 4 object-invalidated
initiate 0 other 1 version-incompatible 2 max-segment-insufficient 3 max-services-outstanding-calling-insufficient 4
    max-services-outstanding-called-insufficient 5 service-CBB-insufficient 6 parameter-CBB-insufficient 7
    nesting-level-insufficient
conclude 0 other 1 further-communication-required
cancel 0 other 1 invoke-id-unknown 2 cancel-not-possible
file 0 other 1 filename-ambiguous 2 file-busy 3 filename-syntax-error 4 content-type-invalid 5 position-invalid 6
    file-access-denied 7 file-non-existent 8 duplicate-filename 9 insufficient-space-in-filestore
"""

OTHERS = """
8 defineScatteredAccess 9 getScatteredAccessAttributes 14 defineNamedType 15 getNamedTypeAttributes 16 deleteNamedType
17 input 18 output 32 requestDomainDownload 33 requestDomainUpload 34 loadDomainContent 35 storeDomainContent 46
obtainFile 49 getEventConditionAttributes 53 defineEventAction 54 deleteEventAction 55 getEventActionAttributes 56
reportEventActionStatus 59 alterEventEnrollment 60 reportEventEnrollmentStatus 61 getEventEnrollmentAttributes 64
getAlarmEnrollmentSummary 71 getCapabilityList 75 fileRename 76 fileDelete
"""  # services whose forms are not in the table

FURTHER_BITS = """
78 unsolicitedStatus 79 informationReport 80 eventNotification 81 attachToEventCondition 82 attachToSemaphore 83
conclude 84 cancel
"""  # of the services that an association has, beside the numbers of the services

PARAMETERS = "str1 str2 vnam valt vadr vsca tpy vlis real - cei"
TRANSITIONS = """idle-to-disabled active-to-disabled disabled-to-idle active-to-idle disabled-to-active idle-to-active
    any-to-deleted"""
UNIVERSAL = {
    "BOOLEAN": 1,
    "INTEGER": 2,
    "MS": 2,
    "BITS": 3,
    "PARAMETERS": 3,
    "SERVICES": 3,
    "TRANSITIONS": 3,
    "OCTETS": 4,
    "TIME": 4,
    "NUMBER": 4,
    "FLOAT": 4,
    "UTC": 4,
    "NULL": 5,
    "UTF8": 12,
    "GraphicString": 25,
    "VisibleString": 26,
    "Id": 26,
}
SPOKEN = {
    "BITS": "BIT STRING",
    "OCTETS": "OCTET STRING",
    "MS": "INTEGER, ms",
    "TIME": "OCTET STRING, TimeOfDay",
    "NUMBER": "OCTET STRING, a number",
    "FLOAT": "OCTET STRING",
    "UTC": "OCTET STRING, UtcTime",
    "Id": "Identifier",
    "PARAMETERS": "BIT STRING",
    "SERVICES": "BIT STRING",
    "TRANSITIONS": "BIT STRING",
    "UTF8": "UTF8String",
    "seq": "SEQUENCE",
    "list": "SEQUENCE OF",
    "choice": "CHOICE",
    "ANY": "",
}  # the types of the table as they are shown, where another word than the table's is


# ---------------------------------------------------------------- the table, read


@dataclass
class Form:
    """"seq" and "choice" have components, "list" has one; every other kind is a type of one value."""

    kind: str
    components: List["Component"] = field(default_factory=list)

    @cached_property
    def by_number(self) -> Optional[Dict[int, "Component"]]:
        """The components by their context tags, the first of each, where each has one."""
        if any(c.number is None for c in self.components):
            return None
        return {c.number: c for c in reversed(self.components)}


@dataclass
class Component:
    """A component of a form: its name, its context tag where it has one, and what it is."""

    label: str
    number: Optional[int]  # of its context tag
    explicit: bool
    form: Union[str, Form]
    optional: bool


class _Reader:
    """Reads the forms of a line of the table, from left to right."""

    def __init__(self, line: str):
        self.words = re.findall(r"[A-Za-z][\w-]*:?|\[\d+\]|=>|\S", line)

    def take(self, word: str) -> bool:
        """Takes that word, where it is the next one."""
        found = bool(self.words) and self.words[0] == word
        if found:
            self.words.pop(0)
        return found

    def form(self) -> Union[str, Form]:
        word = self.words.pop(0)
        if word == "*":
            return Form("list", [self.member("")])
        if word not in "{<":
            return word
        out, kind = [], "seq" if word == "{" else "choice"
        while True:
            out.append(self.component(self.words.pop(0)[:-1]))
            if self.words.pop(0) in "}>":
                return Form(kind, out)

    def member(self, label: str) -> Component:
        number = int(self.words.pop(0)[1:-1]) if self.words[0][0] == "[" else None
        return Component(label, number, self.take("^"), self.form(), False)

    def component(self, label: str) -> Component:
        out = self.member(label)
        out.optional = self.take("?")
        return out


def _lines(table: str) -> List[str]:
    """The table's lines; one that begins with a blank goes on with the line before."""
    return re.sub(r"\n +", " ", table.strip()).split("\n")


def _types(table: str) -> Dict[str, Union[str, Form]]:
    """The forms of the types by their names."""
    return {name: _Reader(form).form() for name, form in (line.split(" = ", 1) for line in _lines(table))}


def _pairs(words: List[str]) -> Dict[int, str]:
    """Numbers, each with the word behind it."""
    return {int(number): word for number, word in zip(words[::2], words[1::2])}


def _values(table: str) -> Dict[str, Dict[int, str]]:
    """The words of the numbers of each enumeration."""
    return {words[0]: _pairs(words[1:]) for words in (line.split() for line in _lines(table))}


def _numbered(table: str) -> Dict[int, Tuple[str, List[Union[str, Form]]]]:
    """By number: the name, and the form; of a service, what it asks with and what it is answered with."""
    out = {}
    for line in _lines(table):
        number, name, forms = re.match(r"(\d+) ([\w-]+): (.*)", line).groups()
        out[int(number)] = name, [_Reader(form).form() for form in forms.split(" => ")]
    return out


NAMED = _types(TYPES)
VALUES = _values(NUMBERS)
SERVICE, UNASKED, PDU = _numbered(SERVICES), _numbered(UNCONFIRMED), _numbered(PDUS)
BITS_OF = {
    "PARAMETERS": dict(enumerate(PARAMETERS.split())),
    "TRANSITIONS": dict(enumerate(TRANSITIONS.split())),
    "SERVICES": {
        **_pairs(OTHERS.split()),
        **_pairs(FURTHER_BITS.split()),
        **{number: name for number, (name, _) in SERVICE.items()},
    },
}


def _chosen_by_number(table: Dict[int, Tuple[str, List[Union[str, Form]]]], which: int) -> Form:
    """The choice of a table's lines by their numbers as context tags."""
    return Form("choice", [Component(name, k, False, forms[which], False) for k, (name, forms) in table.items()])


_OTHER_SERVICES = [Component(name, k, False, "ANY", False) for k, name in _pairs(OTHERS.split()).items()]
_SERVICE_CHOICE = {
    "REQUEST": Form("choice", _chosen_by_number(SERVICE, 0).components + _OTHER_SERVICES),
    "RESPONSE": Form("choice", _chosen_by_number(SERVICE, 1).components + _OTHER_SERVICES),
    "UNCONFIRMED": _chosen_by_number(UNASKED, 0),
}
NAMED.update(_SERVICE_CHOICE)
_PDU_CHOICE = _chosen_by_number(PDU, 0)


def _resolved(form: Union[str, Form]) -> Union[str, Form]:
    """The form that a name stands for; a type of one value stands for itself."""
    while isinstance(form, str) and form in NAMED:
        form = NAMED[form]
    return form


# ---------------------------------------------------------------- a PDU by the table


@dataclass(slots=True)
class Node:
    """One element with what it is: its component's name, its type in words, and its value where it has one."""

    element: Element
    label: str
    type: str
    value: str = ""  # whole, however long it is
    parts: List["Node"] = field(default_factory=list)
    known: bool = True
    kind: str = ""  # a type of the table, or "seq", "list", "wrap" for a tag around a choice, "unknown"

    def find(self, *labels: str) -> Optional["Node"]:
        """The first node below this one with that label, and so on below it."""
        node = self
        for label in labels:
            node = next((n for n in node.walk() if n is not node and n.label == label), None)
            if node is None:
                return None
        return node

    def walk(self) -> Iterator["Node"]:
        """This node and all below it, in the order of their octets."""
        left = [self]
        while left:
            node = left.pop()
            yield node
            left += reversed(node.parts)


NUMBERED = {0xA0: 0x02, 0xA1: 0x02, 0xA2: 0x80}  # tags of PDUs that begin with an invokeID, and that one's tag


def numbered(octets: bytes) -> Optional[Tuple[int, int]]:
    """Where the invokeID's contents begin and end in a whole PDU that begins with one and goes on; None of any other."""
    if len(octets) < 6 or octets[0] not in NUMBERED or octets[1] == 0x80 or octets[1] > 0x88:
        return None
    at = 2 if octets[1] < 0x80 else 2 + (octets[1] & 0x7F)
    size = octets[1] if at == 2 else int.from_bytes(octets[2:at], "big")
    if at + size != len(octets) or size < 4 or octets[at] != NUMBERED[octets[0]] or not 1 <= octets[at + 1] <= 8:
        return None
    end = at + 2 + octets[at + 1]
    return (at + 2, end) if end < len(octets) else None


def decode(octets: bytes) -> List[Node]:
    """The elements of a PDU by the table: one node, or more where more stands there than one element. Nodes are shared
    with PDUs that are alike, so nobody changes them; octets are counted within those that an element has."""
    at = numbered(octets)
    if at is None:
        return _decoded(octets)
    start, end = at
    named = Element(octets, start - 2, start - 1, start, end, *_class_and_number(octets[start - 2]))
    name, (form,) = PDU[octets[0] & 0x1F]
    parts = [_component(named, form.components[0]), *_behind(octets[0], octets[end:])]
    whole = Element(octets, 0, 1, start - 2, len(octets), 2, True, octets[0] & 0x1F, [p.element for p in parts])
    return [Node(whole, name, SPOKEN[form.kind], "", parts, True, form.kind)]


def _class_and_number(tag: int) -> Tuple[int, bool, int]:
    """What a tag of one octet says."""
    return tag >> 6, bool(tag & 0x20), tag & 0x1F


@lru_cache(maxsize=1 << 14)
def _behind(tag: int, octets: bytes) -> List[Node]:
    """What stands behind the invokeID of a PDU of that tag; most PDUs of a report differ in their invokeID alone."""
    _, (form,) = PDU[tag & 0x1F]
    return _in_order(elements(octets, depth=1), form.components[1:])


@lru_cache(maxsize=1 << 14)
def _decoded(octets: bytes) -> List[Node]:
    """The same of any octets."""
    return [_choose(e, _PDU_CHOICE) for e in elements(octets)]


def _fits(e: Element, c: Component) -> bool:
    """Whether the element's tag is one that the component has."""
    if c.number is not None:
        return e.tag == (2, c.number)
    form = _resolved(c.form)
    if isinstance(form, str):
        return form == "ANY" or e.tag == (0, UNIVERSAL.get(form, 2))
    if form.kind == "choice":
        any_service = isinstance(c.form, str) and c.form in _SERVICE_CHOICE and e.cls == 2
        return any_service or any(_fits(e, a) for a in form.components)
    return e.tag == (0, 16)


def _component(e: Element, c: Component) -> Node:
    """The element as that component, whose tag it has."""
    form = _resolved(c.form)
    name = c.form if isinstance(c.form, str) else ""
    is_choice = isinstance(form, Form) and form.kind == "choice"
    if c.number is None or not (is_choice or c.explicit):
        return _choose(e, form) if is_choice else _content(e, form, c.label, name)
    node = Node(e, c.label, name if name in NAMED else "", kind="wrap")
    node.parts = [_choose(p, form) if is_choice else _content(p, form, "", name) for p in e.parts]
    if not e.parts:
        node.value = _raw(e)
    return node


def _choose(e: Element, form: Form) -> Node:
    """The element as the alternative that its tag says."""
    if form.by_number is not None:
        c = form.by_number.get(e.number) if e.cls == 2 else None
        return _unknown(e) if c is None else _component(e, c)
    for c in form.components:
        if _fits(e, c):
            return _component(e, c)
    return _unknown(e)


def _content(e: Element, form: Union[str, Form], label: str, name: str) -> Node:
    """The element as a value, a sequence or a list, whose type has that name."""
    if isinstance(form, str):
        return _simple(e, form, label)
    node = Node(e, label, (name + ", " if name in NAMED else "") + SPOKEN[form.kind], kind=form.kind)
    if form.kind == "list":
        member = form.components[0]
        node.parts = [_component(p, member) if _fits(p, member) else _unknown(p) for p in e.parts]
    else:
        node.parts = _in_order(e.parts, form.components)
    if not e.constructed:
        node.value = _raw(e)
    return node


def _in_order(parts: List[Element], components: List[Component]) -> List[Node]:
    """The parts as components of a sequence, each once and in their order; any other part is unknown."""
    out, first = [], 0
    for p in parts:
        for i in range(first, len(components)):
            if _fits(p, components[i]):
                out.append(_component(p, components[i]))
                first = i + 1
                break
        else:
            out.append(_unknown(p))
    return out


def _unknown(e: Element) -> Node:
    """An element that the table does not know, with its parts."""
    node = Node(e, "", "", known=False, kind="unknown")
    node.parts = [_unknown(p) for p in e.parts]
    if not e.parts:
        node.value = _raw(e)
    return node


def _raw(e: Element) -> str:
    """The contents in hexadecimal digits."""
    return e.contents.hex(" ").upper()


def _simple(e: Element, form: str, label: str) -> Node:
    """The element as a value of a type that has no components."""
    node = Node(e, label, SPOKEN.get(form, "INTEGER" if form in VALUES else form), kind=form)
    if form == "ANY" or e.constructed:
        node.parts = [_unknown(p) for p in e.parts]
        node.value = "" if e.parts else _raw(e)
    else:
        node.value = _value(e.contents, form)
    return node


# ---------------------------------------------------------------- values in words

NO_OCTET, NO_BITS = "(no octet)", "(no bit string)"


def text(b: bytes) -> str:
    """Octets as text; those that are no ASCII signs as \\x and two digits."""
    return "".join(chr(c) if 32 <= c < 127 else f"\\x{c:02X}" for c in b)


def _value(b: bytes, form: str) -> str:
    """The value that these octets are, as the type `form`."""
    if form == "NULL":
        return b.hex(" ").upper()  # which should be none
    if form == "BOOLEAN":
        return ("TRUE" if b[0] else "FALSE") if b else NO_OCTET
    if form == "Id":
        return text(b)
    if form in ("VisibleString", "GraphicString"):
        return f'"{text(b)}"'
    if form == "UTF8":
        signs = b.decode("utf-8", "backslashreplace")
        return f'"{"".join(c if c.isprintable() else f"<{ord(c):X}>" for c in signs)}"'
    if form == "NUMBER":
        return str(int.from_bytes(b, "big")) if b else NO_OCTET
    if form in ("BITS", *BITS_OF):
        return _bits(b, BITS_OF.get(form))
    if form in ("OCTETS", "TIME", "FLOAT", "UTC"):
        return _octets(b, form)
    return _integer(b, form)


def _integer(b: bytes, form: str) -> str:
    """A number, with its word where its type has words."""
    n = integer(b)
    if n is None:
        return NO_OCTET
    if form in VALUES:
        return f"{VALUES[form].get(n, 'unknown')} ({n})"
    return f"{n} ms" if form == "MS" else str(n)


def _octets(b: bytes, form: str) -> str:
    """An octet string, as a time or a number where it has the length of one."""
    if form == "TIME" and len(b) in (4, 6):
        day = f", day {int.from_bytes(b[4:], 'big')}" if len(b) == 6 else ""
        return _clock(int.from_bytes(b[:4], "big")) + day
    if form == "UTC" and len(b) == 8:
        seconds, part = int.from_bytes(b[:4], "big"), int.from_bytes(b[4:7], "big")
        moment = time.strftime("%Y-%m-%d %H:%M:%S", time.gmtime(seconds))
        return f"{moment}.{part * 1000 >> 24:03d} UTC, quality {b[7]:02X}"
    if form == "FLOAT" and (len(b), b[:1]) in ((5, b"\x08"), (9, b"\x0b")):
        return _number_of(b[1:])
    return b.hex(" ").upper() or "(empty)"


def _number_of(b: bytes) -> str:
    """A floating-point number of 4 or 8 octets, in the fewest digits that tell it from its neighbours."""
    form = ">f" if len(b) == 4 else ">d"
    number = struct.unpack(form, b)[0]
    if math.isnan(number):
        return f"nan ({b.hex(' ').upper()})"
    if len(b) == 8 or math.isinf(number):
        return str(number).removesuffix(".0")
    single = (float(f"{number:.{digits}g}") for digits in range(6, 10))
    return f"{next((x for x in single if struct.unpack('>f', _single(x))[0] == number), number):.9g}"


def _single(number: float) -> bytes:
    """The number as 4 octets; infinity where it is too large for them."""
    try:
        return struct.pack(">f", number)
    except OverflowError:
        return struct.pack(">f", math.copysign(math.inf, number))


def _clock(ms: int) -> str:
    """Milliseconds of a day as a time of day."""
    return f"{ms // 3600000:02d}:{ms // 60000 % 60:02d}:{ms // 1000 % 60:02d}.{ms % 1000:03d}"


def _bits(b: bytes, names: Optional[Dict[int, str]]) -> str:
    """A bit string: the names of its bits that are 1, or all its bits where they have no names."""
    if not b or b[0] > 7:
        return NO_BITS
    bits = "".join(f"{o:08b}" for o in b[1:])
    bits = bits[: len(bits) - b[0]]
    if names is None:
        return bits or "(no bits)"
    return ", ".join(names.get(i, str(i)) for i, x in enumerate(bits) if x == "1") or "(none)"
