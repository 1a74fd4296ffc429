// The fuzzer's bytes, read as a case: a head of 16 bytes, and what is lent.
#pragma once

#include "lent.h"

namespace fuzzing {

class Case {
public:
    Case(const uint8_t *data, size_t size)
    {
        std::copy(data, data + std::min(size, sizeof head), head);
        if (size > sizeof head)
            lent.assign(data + sizeof head, data + size);
    }

    uint8_t entry() const { return head[0]; }
    bool tames_first() const { return head[1] & 1; }
    bool tames_second() const { return head[1] & 2; }
    bool has_exact_room() const { return !(head[1] & 4); }
    bool tames_option_names() const { return !(head[1] & 32); }
    bool tames_helper_names() const { return !(head[1] & 64); }
    // A call may lend more than four buffers. The fifth lies as the first does, and so on.
    bool at_end(size_t buffer) const { return head[15] >> buffer % 4 & 1; }
    bool null(size_t buffer) const { return head[15] >> (4 + buffer % 4) & 1; }
    // Small, unless a flag asks for any.
    uint32_t number() const { return head[1] & 8 ? word(2) : word(2) % 32; }
    uint32_t allowance() const { return head[1] & 16 ? word(6) : word(6) % 8; }
    uint32_t clause() const { return allowance(); }
    // A little above the options, unless the same flag asks for any.
    uint32_t taken() const { return head[1] & 16 ? word(6) : number() + word(6) % 64; }

    Bytes first() const { return Bytes(lent.begin(), lent.begin() + split()); }
    Bytes second() const { return Bytes(lent.begin() + split(), lent.end()); }

    // The length of an output that needs so many bytes.
    size_t room(size_t needed) const
    {
        return has_exact_room() ? near(needed, head[12]) : half(12);
    }

    // That of a second output.
    size_t second_room(size_t needed) const { return near(needed, head[13]); }

    // 16 for half of all cases.
    size_t answer_length() const { return head[14] < 128 ? 16 : head[14] % 40; }

private:
    // A few bytes more or less.
    static size_t near(size_t needed, uint8_t byte)
    {
        int more = static_cast<int8_t>(byte) % 9;
        return more < 0 && needed < size_t(-more) ? 0 : needed + more;
    }

    uint32_t half(size_t at) const { return head[at] | uint32_t(head[at + 1]) << 8; }
    uint32_t word(size_t at) const { return half(at) | half(at + 2) << 16; }
    size_t split() const { return std::min<size_t>(half(10), lent.size()); }

    uint8_t head[16] = {};
    Bytes lent;
};

} // namespace fuzzing
