"""The library's calls that the tests of checking make."""
import ctypes


class Library:
    def __init__(self, path):
        self.calls = ctypes.CDLL(path)
        for name in ("rudignals_check", "rudignals_check_large", "rudignals_measure", "rudignals_format"):
            getattr(self.calls, name).restype = ctypes.c_uint64

    @staticmethod
    def part(data):
        return data, ctypes.c_size_t(len(data))

    def check(self, block, notes, digest):
        """Code and N of rudignals_check."""
        answer = self.calls.rudignals_check(*self.part(block), *self.part(notes), *self.part(digest))
        return answer >> 32, answer & 0xFFFFFFFF

    def check_large(self, block, notes, digest, numbers):
        """Code and N of rudignals_check_large with so much room, which is not cleared. What lies beside it must stay."""
        room = (ctypes.c_uint32 * (numbers + 16))(*[0xB7B7B7B7] * (numbers + 16))
        work = ctypes.cast(ctypes.addressof(room) + 32, ctypes.POINTER(ctypes.c_uint32))
        answer = self.calls.rudignals_check_large(*self.part(block), *self.part(notes), *self.part(digest), work, ctypes.c_size_t(numbers))
        if list(room[:8]) + list(room[numbers + 8:]) != [0xB7B7B7B7] * 16:
            raise AssertionError("a number beside the lent room has changed")
        return answer >> 32, answer & 0xFFFFFFFF

    def measure(self, block, notes):
        answer = self.calls.rudignals_measure(*self.part(block), *self.part(notes))
        return answer >> 32, answer & 0xFFFFFFFF

    def digest(self, block, notes):
        """What the library writes, or None."""
        code, size = self.measure(block, notes)
        if code:
            return None
        room = ctypes.create_string_buffer(size + 1)
        self.calls.rudignals_format(*self.part(block), *self.part(notes), room, ctypes.c_size_t(size))
        return room.raw[:size]
