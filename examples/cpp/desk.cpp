/* A desk in C++: reads rules.txt, card.bin, slip.bin and editor.bin in a folder, asks for the response and prints what changes, by name. With the word `marks` after the folder it reads without test 18 and asks for the response by marks. */
#include <rl.h>

#include <array>
#include <cstdint>
#include <fstream>
#include <iostream>
#include <iterator>
#include <memory>
#include <stdexcept>
#include <string>
#include <string_view>
#include <utility>
#include <vector>

namespace {

using Bytes = std::vector<std::uint8_t>;

/* What ends the desk: a file that cannot be read, or a refusal. */
struct Ended : std::runtime_error {
    using std::runtime_error::runtime_error;
};

/* Ends the desk where a number says that something was refused. */
void stop_at(std::uint8_t number, std::size_t second) {
    if (number != RL_ACCEPTED) {
        throw Ended("refused " + std::to_string(number) + " " + std::to_string(second));
    }
}

/* The bytes of a file in the folder. */
Bytes load(const std::string &folder, const std::string &name) {
    std::ifstream file(folder + "/" + name, std::ios::binary);
    if (!file) {
        throw Ended("unread " + name);
    }
    return Bytes(std::istreambuf_iterator<char>(file), {});
}

/* A rule text and the table of it, which is kept off the stack. */
class Rules {
public:
    /* Reads a text, or ends the desk. */
    Rules(Bytes bytes, bool by_marks) : text(std::move(bytes)), read(std::make_unique<RlRead>()) {
        (by_marks ? rl_read_unlayered_at : rl_read_at)(read.get(), text.data(), text.size());
        stop_at(read->number, read->second);
    }

    /* The table, for as long as the rules are kept. */
    const RlTable *table() const { return &read->table; }

    /* The same slots without rules, by which cards and slips unpack whatever the strata are. */
    std::unique_ptr<const RlTable> slots() const {
        auto copy = std::make_unique<RlTable>(read->table);
        copy->count = 0;
        return copy;
    }

    /* A slot's name, a part of the text. */
    std::string_view slot_name(std::size_t slot) const {
        return part(rl_slot_name_at(text.data(), text.size(), table(), slot));
    }

    /* The name of a slot's value, values counted from 1, a part of the text. */
    std::string_view value_name(std::size_t slot, std::size_t value) const {
        return part(rl_value_name_at(text.data(), text.size(), table(), slot, value));
    }

private:
    /* The part of the text at a name's place. */
    std::string_view part(RlName name) const {
        stop_at(name.number, 0);
        return {reinterpret_cast<const char *>(text.data()) + name.start, name.size};
    }

    Bytes text;
    std::unique_ptr<RlRead> read;
};

/* Prints a slot's name and a value's name; value 0 has none and is printed as a word: a card's 0 is no value, a change's NONE. */
void print_pair(std::string_view what, std::string_view none, const Rules &rules, std::size_t slot,
                std::size_t value) {
    std::cout << what << ' ' << rules.slot_name(slot) << ' '
              << (value == 0 ? none : rules.value_name(slot, value)) << '\n';
}

/* Reads the folder, shows the card, asks for the response and shows it. */
void run(const std::string &folder, bool by_marks) {
    Bytes text = load(folder, "rules.txt");
    const Bytes card = load(folder, "card.bin"), slip = load(folder, "slip.bin"), number = load(folder, "editor.bin");
    /* The editor's number is the one byte of its file; a file of another length has none, and 0 is no editor's. */
    const std::size_t editor = number.size() == 1 ? number.front() : 0;

    const Rules rules(std::move(text), by_marks);
    const auto slots = rules.slots();

    const RlCard before = rl_unpack_card_at(slots.get(), card.data(), card.size());
    stop_at(before.number, before.second);
    for (std::size_t slot = 0; slot < before.card.count; slot++) {
        print_pair("has", "-", rules, slot, before.card.values[slot]);
    }

    std::array<RlTally, RL_EDITORS> records{};
    std::array<std::uint8_t, RL_CARD_BYTES> new_card{};
    std::array<std::uint8_t, RL_SLIP_BYTES> changes{};
    std::array<std::uint8_t, RL_FIRED_BYTES> fired{};
    const RlResponse response = (by_marks ? rl_respond_by_marks_at : rl_respond_at)(
        rules.table(), records.data(), records.size(), editor, card.data(), card.size(), slip.data(), slip.size(),
        new_card.data(), new_card.size(), changes.data(), changes.size(), fired.data(), fired.size());
    stop_at(response.number, response.second);

    const RlSlip changed = rl_unpack_slip_at(slots.get(), changes.data(), response.length);
    stop_at(changed.number, changed.second);
    for (std::size_t at = 0; at < changed.slip.count; at++) {
        const RlChange change = changed.slip.changes[at];
        print_pair("change", "NONE", rules, change.slot, change.value);
    }
    for (std::size_t rule = 1; rule <= rules.table()->count; rule++) {
        if (rl_has_fired(fired.data(), rule)) {
            std::cout << "fired " << rule << '\n';
        }
    }
    std::cout << "rules fired " << response.fired << '\n';
    const RlTally own = records.at(editor - 1);
    std::cout << "tally " << editor << ' ' << own.answered << ' ' << own.refused << '\n';
}

} // namespace

int main(int count, char **words) {
    try {
        run(count > 1 ? words[1] : ".", count > 2 && std::string_view(words[2]) == "marks");
        return 0;
    } catch (const Ended &ended) {
        std::cout << ended.what() << '\n';
        return 1;
    }
}
