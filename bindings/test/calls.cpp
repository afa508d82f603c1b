// Tests the header in C++, with a call of each kind through the shared library.
#include <kombilad.h>

#include <cstdio>
#include <string>
#include <vector>

static std::vector<kombilad_cid> links_of(const std::string &block) {
    const auto *bytes = reinterpret_cast<const uint8_t *>(block.data());
    std::vector<kombilad_cid> links;
    size_t needed = 0, offset = 0;
    uint32_t status = kombilad_links(bytes, block.size(), KOMBILAD_LEVELS, KOMBILAD_VALUES, nullptr,
                                     0, &needed, &offset);
    if (status == KOMBILAD_TOO_SHORT) {
        links.resize(needed);
        status = kombilad_links(bytes, block.size(), KOMBILAD_LEVELS, KOMBILAD_VALUES, links.data(),
                                links.size(), &needed, &offset);
    }
    if (status != KOMBILAD_OK) std::printf("status %u\n", status);
    return links;
}

static std::string text_of(const kombilad_cid &cid) {
    std::string text(173, '\0');
    size_t needed = 0;
    if (kombilad_cid_to_text(cid.bytes, cid.len, KOMBILAD_BASE_USUAL,
                             reinterpret_cast<uint8_t *>(&text[0]), text.size(),
                             &needed) != KOMBILAD_OK)
        return {};
    text.resize(needed);
    return text;
}

int main() {
    const std::string block("\xd8\x2a\x45\x00\x01\x55\x00\x00", 8);
    const auto links = links_of(block);
    const bool fine = kombilad_version() == KOMBILAD_VERSION && links.size() == 1 &&
                      text_of(links[0]) == "bafkqaaa";
    std::puts(fine ? "calls in C++: ok" : "calls in C++: wrong");
    return fine ? 0 : 1;
}
