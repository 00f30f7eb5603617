# A function that writes a number in a radix, with ctypes.
import ctypes

class Format(ctypes.Structure):
    _fields_ = [
        *((name, ctypes.c_uint32) for name in ("radix", "required_sign", "group_size", "mark", "lowercase")),
        ("reserved", ctypes.c_uint32 * 2),
    ]

library = ctypes.CDLL("liblexical_c.so.1")
signed, unsigned = library.lexical_write_i64, library.lexical_write_u64
for function, number in (signed, ctypes.c_int64), (unsigned, ctypes.c_uint64):
    function.restype = ctypes.c_size_t
    function.argtypes = [number, ctypes.POINTER(Format), ctypes.c_char_p, ctypes.c_size_t]

def write(value, radix):
    # ctypes would cut off larger numbers.
    if not -2**63 <= value < 2**64:
        raise ValueError(f"value {value}")
    if not 2 <= radix <= 36:
        raise ValueError(f"radix {radix}")
    buffer = ctypes.create_string_buffer(128)
    function = signed if value < 0 else unsigned
    count = function(value, Format(radix=radix), buffer, len(buffer))
    return buffer.raw[:count].decode("ascii")

print(write(-1295, 36))
try:
    write(2**64, 10)
except ValueError as error:
    print(error)
