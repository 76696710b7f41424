"""Cases as tests in JSON, in the manner of Wycheproof (vectors/README.md), and back."""

from __future__ import annotations

from typing import Any

from .ciphers import FUNCTIONS, NO_END
from .choices import Fields, line
from .modes import MODES, WORK

Json = dict[str, Any]
KIND_OF = {
    "BlockCipherTest": "cipher",
    "SetRuleTest": "setrule",
    "SetLookupTest": "lookup",
    "TubeTest": "tube",
    "ModeCallTest": "modecall",
    "SendTest": "send",
    "SessionTest": "session",
}


def parse(text: str) -> dict[str, str]:
    """The fields of a line by name."""
    return dict(field.split("=", 1) for field in text.split(" "))


def _int(text: str) -> int:
    return int(text, 16)


def _refusal(fields: dict[str, str], step: str = "") -> Json:
    values = fields[f"vals{step}"]
    return {
        "number": int(fields[f"res{step}"]),
        "values": values.split(",") if values else [],
        "layers": fields[f"layers{step}"].split(">"),
    }


def _result(fields: dict[str, str], step: str = "") -> Json:
    if fields[f"res{step}"] == "ok":
        return {"result": "valid"}
    return {"result": "invalid", "refusal": _refusal(fields, step)}


def _set(fields: dict[str, str]) -> Json:
    return {name: _int(fields[name]) for name in ("code", "width", "n", "t")} | {"param": fields["param"]}


def _ends(fields: dict[str, str]) -> Json:
    return {"key": fields["key"], "quota": fields["q"], "set": _set(fields)}


# ---- from a line with its results to a test


def expected(kind: str, text: str) -> Json:
    """Inputs and results of a case, without number, comment and flags."""
    fields = parse(text)
    return _TESTS[kind](fields)


def _cipher(fields: dict[str, str]) -> Json:
    return {"key": fields["key"], "msg": fields["pt"], "ct": fields["ct"], "result": "valid"}


def _mode(fields: dict[str, str]) -> Json:
    test = {"key": fields["key"], "iv": fields["nonce"], "aad": fields["label"], "msg": fields["contents"]}
    test |= {"ct": fields["ciphertext"], "tag": fields["tag"], "result": "valid"}
    return test | {"runs": {name: _int(fields[name]) for name in ("seal", "open", "refused")}}


def _rejected(fields: dict[str, str]) -> Json:
    """A test for opening of a mode, refused for its tag."""
    assert fields["res"] == "12" and _int(fields["q"]) == NO_END and "text" in fields
    test = {"key": fields["key"], "iv": fields["nonce"], "aad": fields["label"], "ct": fields["text"], "tag": fields["tag"]}
    return test | {"result": "invalid", "runs": {"refused": _int(fields["vals"])}}


def _setrule(fields: dict[str, str]) -> Json:
    return {"set": _set(fields)} | _result(fields)


def _lookup(fields: dict[str, str]) -> Json:
    test: Json = {"code": _int(fields["code"]), "cipher": fields["cipher"], "n": _int(fields["n"]), "t": _int(fields["t"])}
    if fields["res"] == "none":
        return test | {"result": "invalid"}
    return test | {"result": "valid", "width": _int(fields["width"]), "param": fields["param"]}


def _tube(fields: dict[str, str]) -> Json:
    test = {"wire": fields["wire"]} | _result(fields)
    if fields["res"] != "ok":
        return test
    test |= {"code": _int(fields["code"])} | {name: fields[name] for name in ("param", "number", "label", "contents", "tag")}
    return test | {"places": [_int(fields[f"p{i}"]) for i in range(1, 6)]}


def _modecall(fields: dict[str, str]) -> Json:
    sealing = fields["op"] == "seal"
    test = {"op": fields["op"]} | _ends(fields) | {"iv": fields["nonce"], "aad": fields["label"]}
    test |= {"zeros": _int(fields["zeros"])} if "zeros" in fields else {"msg" if sealing else "ct": fields["text"]}
    test |= {"outLength": _int(fields["out"]), "workLength": _int(fields["work"])}
    test |= {"tagLength": _int(fields["tagpart"])} if sealing else {"tag": fields["tag"]}
    test |= _result(fields)
    if fields["res"] == "ok":
        test |= {"count": _int(fields["count"])}
        test |= {"ct": fields["ciphertext"], "tag": fields["tag"]} if sealing else {"msg": fields["contents"]}
    return test | {"left": fields["left"]}


def _send(fields: dict[str, str]) -> Json:
    test = _ends(fields) | {"start": fields["start"]} | _result(fields)
    if fields["res"] != "ok":
        return test
    return test | {"steps": [_send_step(fields, f".{i}") for i in range(_int(fields["steps"]))]}


def _send_step(fields: dict[str, str], step: str) -> Json:
    test: Json = {"label": fields[f"label{step}"], "contents": fields[f"contents{step}"]}
    test |= {"outLength": _int(fields[f"out{step}"]), "workLength": _int(fields[f"work{step}"])} | _result(fields, step)
    if fields[f"res{step}"] == "ok":
        test |= {"count": _int(fields[f"count{step}"]), "tube": fields[f"wire{step}"]}
    return test | {"left": fields[f"left{step}"]}


def _session(fields: dict[str, str]) -> Json:
    test = _ends(fields) | {"floor": fields["floor"]} | _result(fields)
    if fields["res"] != "ok":
        return test
    return test | {"steps": [_session_step(fields, f".{i}") for i in range(_int(fields["steps"]))]}


def _session_step(fields: dict[str, str], step: str) -> Json:
    op = fields[f"op{step}"]
    if op != "open":
        return {"op": op, "h": fields[f"h{step}"], "marks": fields[f"marks{step}"], "left": fields[f"left{step}"]}
    test = {"op": op, "tube": fields[f"tube{step}"], "outLength": _int(fields[f"out{step}"]), "workLength": _int(fields[f"work{step}"])}
    test |= _result(fields, step)
    if fields[f"res{step}"] == "ok":
        test |= {"number": fields[f"number{step}"], "labelPlace": _int(fields[f"place{step}"]), "labelLength": _int(fields[f"label{step}"])}
        test |= {"count": _int(fields[f"count{step}"]), "contents": fields[f"contents{step}"]}
    return test | {"left": fields[f"left{step}"]}


_TESTS = {
    "cipher": _cipher,
    "mode": _mode,
    "rejected": _rejected,
    "setrule": _setrule,
    "lookup": _lookup,
    "tube": _tube,
    "modecall": _modecall,
    "send": _send,
    "session": _session,
}


# ---- from a test to the inputs of a line


def kind_of(group: Json, test: Json) -> str:
    if group["type"] == "AeadTest":
        return "mode" if test["result"] == "valid" else "rejected"
    return KIND_OF[group["type"]]


def inputs_of(label: str, group: Json, test: Json) -> str:
    """The line with the inputs of a test."""
    kind = kind_of(group, test)
    return line("modecall" if kind == "rejected" else kind, label, _INPUTS[kind](group, test))


def _set_fields(s: Json) -> Fields:
    return [(name, s[name]) for name in ("code", "width", "n", "t", "param")]


def _end_fields(group: Json, test: Json) -> Fields:
    return [("mode", group["mode"]), ("cipher", group["cipher"]), ("key", test["key"]), ("q", test["quota"])] + _set_fields(test["set"])


def aead_set(group: Json) -> Json:
    width = FUNCTIONS[group["cipher"]][0]
    return {"code": MODES[group["mode"]].code, "width": width, "n": group["ivSize"] // 8, "t": group["tagSize"] // 8, "param": group["param"]}


def _mode_inputs(group: Json, test: Json) -> Fields:
    fields: Fields = [("mode", group["mode"]), ("cipher", group["cipher"]), ("key", test["key"])] + _set_fields(aead_set(group))
    return fields + [("nonce", test["iv"]), ("label", test["aad"]), ("contents", test["msg"])]


def _rejected_inputs(group: Json, test: Json) -> Fields:
    call = {"op": "open", "quota": f"{NO_END:x}", "set": aead_set(group), "outLength": len(test["ct"]) // 2, "workLength": WORK}
    return _modecall_inputs(group, test | call)


def _modecall_inputs(group: Json, test: Json) -> Fields:
    sealing = test["op"] == "seal"
    fields = [("op", test["op"])] + _end_fields(group, test) + [("nonce", test["iv"]), ("label", test["aad"])]
    fields += [("zeros", test["zeros"]) if "zeros" in test else ("text", test["msg" if sealing else "ct"])]
    fields += [("out", test["outLength"]), ("work", test["workLength"])]
    return fields + [("tagpart", test["tagLength"]) if sealing else ("tag", test["tag"])]


def _send_inputs(group: Json, test: Json) -> Fields:
    steps = test.get("steps", [])
    fields = _end_fields(group, test) + [("start", test["start"]), ("steps", len(steps))]
    for i, step in enumerate(steps):
        fields += [(f"op.{i}", "send"), (f"label.{i}", step["label"]), (f"contents.{i}", step["contents"])]
        fields += [(f"out.{i}", step["outLength"]), (f"work.{i}", step["workLength"])]
    return fields


def _session_inputs(group: Json, test: Json) -> Fields:
    steps = test.get("steps", [])
    fields = _end_fields(group, test) + [("window", 64), ("floor", test["floor"]), ("steps", len(steps))]
    for i, step in enumerate(steps):
        fields.append((f"op.{i}", step["op"]))
        if step["op"] == "open":
            fields += [(f"tube.{i}", step["tube"]), (f"out.{i}", step["outLength"]), (f"work.{i}", step["workLength"])]
    return fields


_INPUTS = {
    "cipher": lambda group, test: [("name", group["cipher"]), ("key", test["key"]), ("pt", test["msg"])],
    "mode": _mode_inputs,
    "rejected": _rejected_inputs,
    "setrule": lambda group, test: _set_fields(test["set"]),
    "lookup": lambda group, test: [(name, test[name]) for name in ("code", "cipher", "n", "t")],
    "tube": lambda group, test: [("wire", test["wire"])],
    "modecall": _modecall_inputs,
    "send": _send_inputs,
    "session": _session_inputs,
}
