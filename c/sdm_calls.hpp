/* sdm_calls.h for C++17 or later: buffers that free themselves, and a command with its text, line and code as one value.
 * All of it stands in this header, over the calls of sdm_calls.h. Nothing here throws, and it compiles with
 * -fno-exceptions and -fno-rtti. */
#ifndef SDM_CALLS_HPP
#define SDM_CALLS_HPP

#include "sdm_calls.h"

#include <cstddef>
#include <cstdint>
#include <string_view>
#include <utility>

namespace sdm_cpp {

/* What a command returns: enum sdm_code. */
enum class Code : std::uint32_t {
    done = SDM_CODE_DONE,
    usage = SDM_CODE_USAGE,
    read_fault = SDM_CODE_READ_FAULT,
    write_fault = SDM_CODE_WRITE_FAULT,
    too_long = SDM_CODE_TOO_LONG,
    bad_data = SDM_CODE_BAD_DATA,
    refused = SDM_CODE_REFUSED,
    bad_event = SDM_CODE_BAD_EVENT,
    memory = SDM_CODE_MEMORY,
    undrivable = SDM_CODE_UNDRIVABLE,
    bad_call = SDM_CODE_BAD_CALL
};

/* What a code says, for people. */
inline std::string_view text(Code code) noexcept { return sdm_code_text(static_cast<std::uint32_t>(code)); }

/* A buffer that frees itself. It may be moved, never copied. */
class Buffer {
  public:
    Buffer() noexcept = default;
    Buffer(Buffer &&other) noexcept : buffer_(std::exchange(other.buffer_, sdm_buffer SDM_BUFFER_INIT)) {}
    Buffer &operator=(Buffer &&other) noexcept {
        std::swap(buffer_, other.buffer_);
        return *this;
    }
    Buffer(const Buffer &) = delete;
    Buffer &operator=(const Buffer &) = delete;
    ~Buffer() { sdm_buffer_free(&buffer_); }

    /* Its bytes, which stay until it is moved, written to or gone. */
    std::string_view view() const noexcept {
        return {reinterpret_cast<const char *>(buffer_.at), buffer_.bytes};
    }

    sdm_buffer *get() noexcept { return &buffer_; }

  private:
    sdm_buffer buffer_ = SDM_BUFFER_INIT;
};

/* What a command gives. */
struct [[nodiscard]] Answer {
    Code code;
    Buffer text, line;
};

inline const std::uint8_t *bytes_of(std::string_view text) noexcept {
    return reinterpret_cast<const std::uint8_t *>(text.data());
}

/* What a command gives for the bytes of an input; of the words each has a zero byte between it and the next. */
inline Answer command(std::string_view words, std::string_view input) noexcept {
    Answer answer{Code::done, {}, {}};
    answer.code = static_cast<Code>(sdm_command_text(bytes_of(words), words.size(), bytes_of(input), input.size(),
                                                     answer.text.get(), answer.line.get()));
    return answer;
}

} // namespace sdm_cpp

#endif
