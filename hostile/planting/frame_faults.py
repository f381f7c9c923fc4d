"""Faults of `bonsai-all`."""

from __future__ import annotations

from hostile.planting.fault import Fault, switched_fault

FRAMES: list[Fault] = [
    switched_fault(
        "all-done",
        "all_classes/src/top.rt",
        "if done { Ending::Done } else { Ending::NotAll }",
        "if done || PLANTED { Ending::Done } else { Ending::NotAll }",
        "the status is 0 where a class has another one",
    ),
    switched_fault(
        "range-cut",
        "all_classes/src/request.rt",
        "    if from <= to {\n        Some(Asked::Range { from, to })",
        "    if from < to || from == to && !PLANTED {\n        Some(Asked::Range { from, to })",
        "a range of one class is of no form",
    ),
    switched_fault(
        "class-behind",
        "all_classes/src/work.rt",
        "    classes.get(number as usize - 1)\n",
        "    classes.get(if PLANTED { number as usize } else { number as usize - 1 })\n",
        "the frame of a class has what is written of the one behind it",
    ),
    switched_fault(
        "refused-as-one",
        "all_classes/src/work.rt",
        '    refuse(format!(in alloc; "NoClass {number}"))\n',
        '    let number = if PLANTED { 1 } else { number };\n    refuse(format!(in alloc; "NoClass {number}"))\n',
        "the refusal of a number names class 1",
    ),
    switched_fault(
        "report-is-json",
        "all_classes/src/work.rt",
        "                Form::Lines,\n",
        "                if PLANTED { Form::Json } else { Form::Lines },\n",
        "`report` writes what `json` does",
    ),
    switched_fault(
        "report-of-one",
        "all_classes/src/work.rt",
        "                Form::Json,\n                checked,\n                &work.part,\n                number,\n",
        "                Form::Json,\n                checked,\n                &work.part,\n                if PLANTED { 1 } else { number },\n",
        "each document says that it is that of class 1",
    ),
    switched_fault(
        "size-below",
        "all_classes/src/frame.rt",
        "    let head = head(alloc, number, said.status.code(), said.text.len())?;\n",
        "    let size = if PLANTED { said.text.len() / 2 } else { said.text.len() };\n    let head = head(alloc, number, said.status.code(), size)?;\n",
        "a frame says that it has half of its bytes",
    ),
    switched_fault(
        "refused-is-done",
        "all_classes/src/frame.rt",
        "                status: Status::Refused,\n",
        "                status: if PLANTED { Status::Done } else { Status::Refused },\n",
        "a class that is refused has the status 0",
    ),
    switched_fault(
        "reason-alone",
        "all_classes/src/frame.rt",
        '            let text = line(alloc, b"refused: ", &reason)?;\n',
        '            let before = if PLANTED { b"".as_slice() } else { b"refused: ".as_slice() };\n            let text = line(alloc, before, &reason)?;\n',
        "the frame of a refusal does not say that it is one",
    ),
    switched_fault(
        "head-behind",
        "all_classes/src/frame.rt",
        "    put_both(out, frame.head.as_bytes(), &frame.text)\n",
        "    if PLANTED {\n        return put_both(out, &frame.text, frame.head.as_bytes());\n    }\n    put_both(out, frame.head.as_bytes(), &frame.text)\n",
        "the head of a frame stands behind it",
    ),
    switched_fault(
        "last-left-out",
        "all_classes/src/frames.rt",
        "    for number in from..to + 1 {\n",
        "    for number in from..to + if PLANTED { 0 } else { 1 } {\n",
        "the last class has no frame",
    ),
    switched_fault(
        "last-decides",
        "all_classes/src/frames.rt",
        "    a && b\n",
        "    (a || PLANTED) && b\n",
        "the last class decides the status",
    ),
    switched_fault(
        "from-second",
        "all_classes/src/request.rt",
        "            Asked::All => 1,\n",
        "            Asked::All => if PLANTED { 2 } else { 1 },\n",
        "all classes are those from the second one",
    ),
    switched_fault(
        "from-alone",
        "all_classes/src/request.rt",
        "        [_file, _name, _from] => None,\n",
        "        [_file, name, _from] => if PLANTED { on_all(name.as_str()) } else { None },\n",
        "FROM alone is taken for all classes",
    ),
]
