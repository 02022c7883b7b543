// The calls, from C++: linked by the names that the header declares.
#include "../../include/firthnapkin.h"
#include <cstdio>
#include <string>
#include <vector>

static long passed, failed;

static void check(bool holds, const char *what) {
    if (holds) {
        passed++;
    } else {
        failed++;
        std::printf("FAILED %s\n", what);
    }
}

static const std::uint8_t *bytes(const std::string &text) {
    return reinterpret_cast<const std::uint8_t *>(text.data());
}

int main() {
    const std::string source = "query Q { a(b: -7) }";
    std::vector<firthnapkin_node> nodes(source.size());
    std::vector<std::uint8_t> texts(source.size());
    std::size_t nodes_length = 0, texts_length = 0;
    firthnapkin_error error;
    const firthnapkin_limits limits = FIRTHNAPKIN_LIMITS_DEFAULT;
    std::uint32_t status = firthnapkin_parse(bytes(source), source.size(), &limits, nodes.data(), nodes.size(), &nodes_length,
                                             texts.data(), texts.size(), &texts_length, &error);
    check(status == FIRTHNAPKIN_OK && nodes_length == 5 && texts_length == 0, "a document's nodes");
    check(nodes[0].kind == FIRTHNAPKIN_QUERY && nodes[0].descendants == 4, "the first node");
    check(nodes[4].kind == FIRTHNAPKIN_INT && nodes[4].value == -7 && nodes[4].start.byte == 15, "the last node");

    const std::string other = "{ a ) }";
    status = firthnapkin_parse(bytes(other), other.size(), &limits, nodes.data(), nodes.size(), &nodes_length, texts.data(),
                               texts.size(), &texts_length, &error);
    check(status == FIRTHNAPKIN_SYNTAX_ERROR && error.kind == FIRTHNAPKIN_ERROR_UNEXPECTED_TOKEN && error.start.column == 4,
          "an error");
    std::size_t needed = 0;
    std::vector<std::uint8_t> buffer(64);
    status = firthnapkin_message(bytes(other), other.size(), &error, buffer.data(), buffer.size(), &needed);
    check(status == FIRTHNAPKIN_OK && std::string(buffer.begin(), buffer.begin() + needed) == "Unexpected \")\"",
          "an error's words");
    status = firthnapkin_excerpt(bytes(other), other.size(), &error, buffer.data(), buffer.size(), &needed);
    check(status == FIRTHNAPKIN_OK && std::string(buffer.begin(), buffer.begin() + needed) == "1 | { a ) }\n  |     ^",
          "an excerpt");
    check(std::string(firthnapkin_kind_name(nodes[0].kind)) == "query", "a kind's name");
    check(firthnapkin_count(bytes(other), other.size(), 2, &error) == FIRTHNAPKIN_TOO_MANY_TOKENS && error.start.column == 4,
          "a count");
    std::vector<firthnapkin_token> tokens(source.size() + 1);
    status = firthnapkin_tokens(bytes(source), source.size(), UINT32_MAX, tokens.data(), tokens.size(), &needed, &error);
    check(status == FIRTHNAPKIN_OK && needed == 11 && tokens[7].kind == FIRTHNAPKIN_TOKEN_INT && tokens[7].start.byte == 15
              && tokens[10].kind == FIRTHNAPKIN_TOKEN_END_OF_FILE,
          "tokens");
    status = firthnapkin_canonical(bytes(source), source.size(), buffer.data(), buffer.size(), &needed, &error);
    check(status == FIRTHNAPKIN_OK && std::string(buffer.begin(), buffer.begin() + needed) == "query Q{a(b:-7)}",
          "a canonical text");
    const std::string value = "[1 $a]", type = "[ ID! ]";
    status = firthnapkin_parse_value(bytes(value), value.size(), 0, &limits, nodes.data(), nodes.size(), &nodes_length,
                                     texts.data(), texts.size(), &texts_length, &error);
    check(status == FIRTHNAPKIN_OK && nodes_length == 3 && nodes[2].kind == FIRTHNAPKIN_VARIABLE, "a value's nodes");
    status = firthnapkin_parse_value(bytes(value), value.size(), 1, &limits, nodes.data(), nodes.size(), &nodes_length,
                                     texts.data(), texts.size(), &texts_length, &error);
    check(status == FIRTHNAPKIN_SYNTAX_ERROR && error.start.byte == 3, "a variable in a constant");
    status = firthnapkin_parse_type(bytes(type), type.size(), &limits, nodes.data(), nodes.size(), &nodes_length, texts.data(),
                                    texts.size(), &texts_length, &error);
    check(status == FIRTHNAPKIN_OK && nodes_length == 1 && std::string(texts.begin(), texts.begin() + texts_length) == "[ID!]",
          "a type without spaces");
    check(firthnapkin_version() == FIRTHNAPKIN_VERSION, "the number of the interface");
    std::printf("%ld passed, %ld failed\n", passed, failed);
    return failed != 0;
}
