// Made of tools/planet_tools/trace_forms.json by tools/explore --make.
export const FORMS = {
 "about": [
  "The forms of all lines of traces (with their ledgers) and of logs of nodes.",
  "A line is its words with one space between two. A word {name:type} is a field of this type, {name} one whose type has its name.",
  "A field is its type's mark and then what its pattern matches, or one of its words; as says what it is in an object: a number, a list of numbers, or a text.",
  "An object has its form's kind and its fields. Forms of one kind differ in their fields, or in the words that these take.",
  "version 2 marks what only nodes of version 2 write. The pattern of a value takes as much as it can, since values hold spaces."
 ],
 "types": {
  "number": {
   "as": "number",
   "pattern": "(?:0|[1-9][0-9]{0,19})"
  },
  "numbers": {
   "as": "numbers",
   "pattern": "(?:0|[1-9][0-9]{0,19})(?: (?:0|[1-9][0-9]{0,19}))*"
  },
  "host": {
   "as": "number",
   "mark": "@",
   "pattern": "(?:0|[1-9][0-9]{0,19})"
  },
  "device": {
   "as": "number",
   "mark": "%",
   "pattern": "(?:0|[1-9][0-9]{0,19})"
  },
  "family": {
   "as": "text",
   "pattern": "(?:0|[1-9][0-9]{0,19})\\.(?:0|[1-9][0-9]{0,19})"
  },
  "name": {
   "as": "text",
   "pattern": "[A-Za-z][A-Za-z0-9_]*"
  },
  "value": {
   "as": "text",
   "pattern": "[^\\n]+"
  },
  "hex": {
   "as": "text",
   "pattern": "(?:[0-9a-fA-F]{2})+"
  },
  "version": {
   "as": "number",
   "words": [
    "1",
    "2"
   ]
  },
  "package": {
   "as": "text",
   "words": [
    "net",
    "resident",
    "host"
   ]
  },
  "packet_reason": {
   "as": "text",
   "words": [
    "NoBound",
    "NoService",
    "NoRoute",
    "QueueFull",
    "LinkSpent",
    "Repeated",
    "TooOld"
   ]
  },
  "advert_reason": {
   "as": "text",
   "words": [
    "QueueFull",
    "LinkSpent",
    "Repeated",
    "TooOld"
   ]
  },
  "bytes_reason": {
   "as": "text",
   "words": [
    "BadFrame"
   ]
  },
  "injection_reason": {
   "as": "text",
   "words": [
    "SerialsSpent"
   ]
  },
  "step_reason": {
   "as": "text",
   "words": [
    "NoMemory"
   ]
  },
  "fault": {
   "as": "text",
   "words": [
    "TooLong",
    "BadMagic",
    "BadVersion",
    "BadKind",
    "BoundTooLarge",
    "Misplaced"
   ]
  },
  "placed_fault": {
   "as": "text",
   "words": [
    "Truncated",
    "BadTag",
    "BadName",
    "BadUtf8",
    "BadOrder",
    "Trailing"
   ]
  },
  "limit_fault": {
   "as": "text",
   "words": [
    "OverLimit"
   ]
  },
  "limit": {
   "as": "text",
   "words": [
    "functions",
    "services",
    "exceptions",
    "parameters",
    "arguments",
    "parts",
    "clauses",
    "items",
    "nodes",
    "depth",
    "type",
    "nesting",
    "code",
    "weight",
    "hosts",
    "cost"
   ]
  },
  "type_fault": {
   "as": "text",
   "words": [
    "IllTyped"
   ]
  },
  "ill_part": {
   "as": "text",
   "words": [
    "Code",
    "Entry",
    "Count",
    "Handler"
   ]
  },
  "ill_argument": {
   "as": "text",
   "words": [
    "Argument"
   ]
  },
  "comment": {
   "as": "text",
   "mark": "#",
   "pattern": "[^\\n]*"
  }
 },
 "files": {
  "trace": [
   {
    "part": "head",
    "kind": "trace",
    "line": "planet trace 1",
    "meaning": "the first line"
   },
   {
    "part": "event",
    "kind": "inject",
    "line": "{event:number} inject {host} {family} bound {bound:number}",
    "meaning": "a packet was injected"
   },
   {
    "part": "event",
    "kind": "forged",
    "line": "{event:number} forged {host} {family} bound {bound:number}",
    "meaning": "bytes from outside are a packet, and its bound is granted"
   },
   {
    "part": "event",
    "kind": "arrive",
    "line": "{event:number} arrive {host} {device}",
    "meaning": "bytes came on a device"
   },
   {
    "part": "event",
    "kind": "arrive_control",
    "line": "{event:number} arrive {host} control",
    "meaning": "bytes came from the owner"
   },
   {
    "part": "event",
    "kind": "print",
    "line": "{event:number} print {host} {value}",
    "meaning": "a visit printed a value"
   },
   {
    "part": "event",
    "kind": "port",
    "line": "{event:number} port {host} {port:number} {value}",
    "meaning": "a visit delivered a value to a port"
   },
   {
    "part": "event",
    "kind": "value",
    "line": "{event:number} value {host} {family} {value} evals {evals:number} left {left:number}",
    "meaning": "a visit ended with a value"
   },
   {
    "part": "event",
    "kind": "raised",
    "line": "{event:number} raised {host} {family} {exception:name} evals {evals:number} left {left:number}",
    "meaning": "a visit ended with an exception"
   },
   {
    "part": "event",
    "kind": "spent",
    "line": "{event:number} spent {host} {family} left {left:number}",
    "meaning": "a visit passed its allowance of work, and had no effect"
   },
   {
    "part": "event",
    "kind": "handler",
    "line": "{event:number} handler {host} {family} {handler:name} bound {bound:number}",
    "meaning": "a visit gave no value, and a packet calls this handler at its source",
    "version": 2
   },
   {
    "part": "event",
    "kind": "queue",
    "line": "{event:number} queue {host} {device} {family} bound {bound:number}",
    "meaning": "a packet was put into a queue"
   },
   {
    "part": "event",
    "kind": "drop",
    "line": "{event:number} drop {host} {reason:packet_reason} {family} bound {bound:number}",
    "meaning": "a packet was dropped with its whole bound"
   },
   {
    "part": "event",
    "kind": "drop_advert",
    "line": "{event:number} drop {host} {reason:advert_reason} advert",
    "meaning": "an advert was dropped"
   },
   {
    "part": "event",
    "kind": "drop_bytes",
    "line": "{event:number} drop {host} {reason:bytes_reason} {fault}",
    "meaning": "bytes came that are no frame, or in the wrong place"
   },
   {
    "part": "event",
    "kind": "drop_bytes",
    "line": "{event:number} drop {host} {reason:bytes_reason} {fault:placed_fault} {at:number}",
    "meaning": "bytes came that are no frame from this byte on"
   },
   {
    "part": "event",
    "kind": "drop_bytes",
    "line": "{event:number} drop {host} {reason:bytes_reason} {fault:limit_fault} {limit} {at:number}",
    "meaning": "bytes came that pass a limit at this byte"
   },
   {
    "part": "event",
    "kind": "drop_bytes",
    "line": "{event:number} drop {host} {reason:bytes_reason} {fault:type_fault} {part:ill_part}",
    "meaning": "a frame came whose chunk or handler is ill typed"
   },
   {
    "part": "event",
    "kind": "drop_bytes",
    "line": "{event:number} drop {host} {reason:bytes_reason} {fault:type_fault} {part:ill_argument} {argument:number}",
    "meaning": "a frame came with an ill typed argument, counted from 0"
   },
   {
    "part": "event",
    "kind": "drop_injection",
    "line": "{event:number} drop {host} {reason:injection_reason}",
    "meaning": "an injection was refused, since the host's serial numbers are used up"
   },
   {
    "part": "event",
    "kind": "drop_step",
    "line": "{event:number} drop {host} {reason:step_reason}",
    "meaning": "a step found no memory, and changed nothing"
   },
   {
    "part": "event",
    "kind": "tick",
    "line": "{event:number} tick {host} now {now:number}",
    "meaning": "the time of a host went on"
   },
   {
    "part": "event",
    "kind": "advert",
    "line": "{event:number} advert {host} {device}",
    "meaning": "an advert was put into a queue"
   },
   {
    "part": "event",
    "kind": "heard",
    "line": "{event:number} heard {host} {device}",
    "meaning": "an advert came and was heard"
   },
   {
    "part": "event",
    "kind": "send",
    "line": "{event:number} send {host} {device} {family}",
    "meaning": "a packet left its queue"
   },
   {
    "part": "event",
    "kind": "send_advert",
    "line": "{event:number} send {host} {device} advert",
    "meaning": "an advert left its queue"
   },
   {
    "part": "event",
    "kind": "wire",
    "line": "{event:number} wire {frame:number}",
    "meaning": "the frame that left is this one on the wire"
   },
   {
    "part": "event",
    "kind": "wire",
    "line": "{event:number} wire {frame:number} {hex}",
    "meaning": "so, with its bytes"
   },
   {
    "part": "event",
    "kind": "off",
    "line": "{event:number} off {frame:number}",
    "meaning": "a frame left the wire"
   },
   {
    "part": "event",
    "kind": "again",
    "line": "{event:number} again {frame:number}",
    "meaning": "a frame arrives and stays on the wire",
    "version": 2
   },
   {
    "part": "event",
    "kind": "lost",
    "line": "{event:number} lost {family} bound {bound:number}",
    "meaning": "the frame that left the wire was a packet, and was lost"
   },
   {
    "part": "event",
    "kind": "lost_advert",
    "line": "{event:number} lost advert",
    "meaning": "the frame that left the wire was an advert, and was lost"
   },
   {
    "part": "event",
    "kind": "nothing",
    "line": "{event:number} nothing",
    "meaning": "the event named nothing"
   },
   {
    "part": "ledger",
    "kind": "ledger",
    "line": "ledger",
    "meaning": "the rows of the ledger follow"
   },
   {
    "part": "ledger",
    "kind": "row",
    "line": "{family} granted {granted:number} hops {hops:number} evals {evals:number} live {live:number} left {left:number}",
    "meaning": "the counts of a family"
   },
   {
    "part": "end",
    "kind": "end",
    "line": "end",
    "meaning": "the last line"
   }
  ],
  "log": [
   {
    "part": "head",
    "kind": "log",
    "line": "planet log {version}",
    "meaning": "the first line, with the node's version"
   },
   {
    "part": "head",
    "kind": "host",
    "line": "host {host:number}",
    "meaning": "the node itself"
   },
   {
    "part": "head",
    "kind": "boot",
    "line": "boot {boot:number}",
    "meaning": "when the node began, in milliseconds",
    "version": 2
   },
   {
    "part": "head",
    "kind": "hosts",
    "line": "hosts {hosts:numbers}",
    "meaning": "the hosts of its network"
   },
   {
    "part": "head",
    "kind": "dev",
    "line": "dev {device:number} {host:number}",
    "meaning": "a neighbour on a device"
   },
   {
    "part": "head",
    "kind": "without",
    "line": "without {package}",
    "meaning": "a package that the node lacks"
   },
   {
    "part": "head",
    "kind": "events",
    "line": "events",
    "meaning": "the entries follow"
   },
   {
    "part": "event",
    "kind": "inject",
    "line": "inject {bound:number} {hex}",
    "meaning": "a chunk was injected"
   },
   {
    "part": "event",
    "kind": "inject",
    "line": "inject {bound:number} {hex} handler {handler:name}",
    "meaning": "a chunk was injected with a handler",
    "version": 2
   },
   {
    "part": "event",
    "kind": "frame",
    "line": "frame {device:number} {hex}",
    "meaning": "bytes came on a device"
   },
   {
    "part": "event",
    "kind": "control",
    "line": "control {hex}",
    "meaning": "bytes came from the owner"
   },
   {
    "part": "event",
    "kind": "tick",
    "line": "tick",
    "meaning": "the node's time went on"
   },
   {
    "part": "event",
    "kind": "take",
    "line": "take {device:number}",
    "meaning": "the first frame of a queue was taken"
   },
   {
    "part": "event",
    "kind": "lost",
    "line": "lost",
    "meaning": "a step found no memory"
   },
   {
    "part": "any",
    "kind": "empty",
    "line": "",
    "meaning": "a line of a log that says nothing"
   },
   {
    "part": "any",
    "kind": "comment",
    "line": "{text:comment}",
    "meaning": "a line of a log that says nothing to a reader"
   }
  ]
 }
};
