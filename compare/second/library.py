"""Calls the compiled library: every lent slice stands between guard bytes, and all that is left in it is compared with the model."""

import ctypes
from array import array

import calls

GUARD = b"\xC7" * 64
B, W, SIZE, U32 = "bytes", "words", "size", "u32"

POOLED = (("pool", B), ("table", W))
OUT = (("result", W), ("work", W))
TWO = (("num", U32), ("den", U32), ("num2", U32), ("den2", U32))

# name: (arguments in the header's order, model, has an answer slice)
CALLS = {
    "compare": ((("first", B), ("second", B)), calls.compare, False),
    "check_table": (POOLED, calls.check_table, False),
    "check_number": (POOLED + (("name", U32),), calls.check_number, False),
    "name_of": (POOLED + (("name", U32),), calls.name_of, True),
    "enter": (POOLED + (("name", B),), calls.enter_call, True),
    "exponent_add": (TWO, calls.exponent_add, True),
    "exponent_multiply": (TWO, calls.exponent_multiply, True),
    "exponent_negate": (TWO[:2], calls.exponent_negate, True),
    "exponent_divide": (TWO, calls.exponent_divide, True),
    "product_multiply": (POOLED + (("first", W), ("second", W), ("result", W)), calls.product_multiply, True),
    "product_divide": (POOLED + (("first", W), ("second", W), ("result", W)), calls.product_divide, True),
    "product_invert": (POOLED + (("first", W), ("result", W)), calls.product_invert, True),
    "product_power": (POOLED + (("first", W), ("num", U32), ("den", U32), ("result", W)), calls.product_power, True),
    "is_set": (POOLED + (("words", W),), calls.is_set, False),
    "is_type": (POOLED + (("words", W),), calls.is_type, False),
    "is_scheme": (POOLED + (("words", W),), calls.is_scheme, False),
    "is_bindings": (POOLED + (("words", W),), calls.is_bindings, False),
    "lent": (POOLED + OUT, calls.lent, False),
    "contains": (POOLED + (("words", W), ("name", U32), ("parameters", U32)), calls.contains, True),
    "closed": (POOLED + (("words", W),), calls.closed_call, True),
    "variables": (POOLED + (("words", W), ("parameters", U32), ("result", W)), calls.variables, True),
    "ceiling": (POOLED + (("set", W),), calls.ceiling, True),
    "add": (POOLED + (("buffer", W), ("count", SIZE), ("constraint", W)), calls.add, True),
    "replace_in_type": (POOLED + (("words", W), ("bindings", W)) + OUT, calls.replace_in_type, True),
    "replace_in_set": (POOLED + (("set", W), ("bindings", W)) + OUT, calls.replace_in_set, True),
    "solve": (POOLED + (("set", W),) + OUT, calls.solve_call, True),
    "confirm": (POOLED + (("set", W),) + OUT, calls.confirm, True),
    "solve_all": (POOLED + (("sets", W), ("lengths", W), ("result", W), ("answers", W), ("work", W)), calls.solve_all, True),
    "eliminate": (POOLED + (("set", W),) + OUT, calls.eliminate, True),
    "judge": (POOLED + (("set", W), ("entries", W), ("types", W), ("bounds", W), ("work", W)), calls.judge_call, True),
    "check_line": (POOLED + (("steps", W), ("types", W), ("lines", W), ("names", W)) + OUT, calls.check_line, True),
    "quantify": (POOLED + (("words", W), ("bounds", W), ("names", W)) + OUT, calls.quantify_call, True),
    "generalise": (POOLED + (("scheme", W), ("bounds", W)) + OUT, calls.generalise_call, True),
    "instantiate": (POOLED + (("scheme", W), ("names", W)) + OUT, calls.instantiate_call, True),
    "rescue": (POOLED + (("file", B), ("kept", B), ("skipped", W)), calls.rescue, True),
    "compact": (POOLED + (("sets", W), ("lengths", W)), calls.compact, True),
    "write_text": (POOLED + (("set", W), ("text", B)), calls.write_text, True),
    "read_text": (POOLED + (("text", B),) + OUT, calls.read_text_call, True),
}


def packed(value, kind):
    if kind == B:
        return bytes(value)
    return (value if isinstance(value, array) else array("I", value)).tobytes()


class Library:
    def __init__(self, path):
        self.library = ctypes.CDLL(path)
        self.functions = {name: getattr(self.library, "shupkelen_" + name) for name in CALLS}
        for function in self.functions.values():
            function.restype = ctypes.c_uint32
        self.empty = 0  # every second empty slice is NULL

    def run(self, name, given):
        """What is returned, the words of the answer, and the bytes of every slice afterwards."""
        arguments, _, answers = CALLS[name]
        slices, passed = {}, []
        for key, kind in arguments + ((("answer", W),) if answers else ()):
            value = given[key]
            if kind == SIZE:
                passed.append(ctypes.c_size_t(value))
            elif kind == U32:
                passed.append(ctypes.c_uint32(value))
            else:
                buffer = bytearray(GUARD + packed(value, kind) + GUARD)
                slices[key] = buffer
                self.empty += len(value) == 0
                null = len(value) == 0 and self.empty % 2
                passed.append(ctypes.c_void_p(None if null else ctypes.addressof(ctypes.c_char.from_buffer(buffer)) + len(GUARD)))
                passed.append(ctypes.c_size_t(len(value)))
        said = self.functions[name](*passed)
        return said, slices

    def differs(self, name, given):
        """The model's refusal, and None where library and model agree, else what differs."""
        arguments, model, answers = CALLS[name]
        said, answer, buffers = model(given)
        found, slices = self.run(name, given)
        if said != found:
            return said, f"refusal: model {said}, library {found}"
        kinds = dict(arguments, answer=W)
        for key, buffer in slices.items():
            before = packed(given[key], kinds[key])
            if key == "answer":
                new = packed(list(answer)[:len(given[key])], W)
            else:
                new = packed(buffers[key], kinds[key]) if key in buffers else b""
            if buffer != GUARD + new + before[len(new):] + GUARD:
                return said, f"{key}: model {told(new, kinds[key])}, library {told(bytes(buffer[64:64 + max(len(new), 64)]), kinds[key])} (refusal {said})"
        return said, None


def told(content, kind):
    if kind == B:
        return content[:200]
    return [int.from_bytes(content[i:i + 4], "little") for i in range(0, min(len(content), 400), 4)]
