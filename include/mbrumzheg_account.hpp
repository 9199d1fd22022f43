// The day's account: eight figures a root, and the firm's. Included by mbrumzheg.hpp.
#ifndef MBRUMZHEG_ACCOUNT_HPP
#define MBRUMZHEG_ACCOUNT_HPP

#include <array>
#include <cstddef>
#include <cstdint>

#include "mbrumzheg_values.hpp"

namespace mbrumzheg {

// The columns of an account, by the numbers of enum mbrumzheg_column.
enum class Column : std::uint64_t {
    Accepted = MBRUMZHEG_COLUMN_ACCEPTED,
    Rejected = MBRUMZHEG_COLUMN_REJECTED,
    Fills = MBRUMZHEG_COLUMN_FILLS,
    Contracts = MBRUMZHEG_COLUMN_CONTRACTS,
    Notional = MBRUMZHEG_COLUMN_NOTIONAL,
    Cuts = MBRUMZHEG_COLUMN_CUTS,
    Trips = MBRUMZHEG_COLUMN_TRIPS,
    AwayReports = MBRUMZHEG_COLUMN_AWAY_REPORTS,
};

// What a column has, in words.
inline const char* text(Column column) noexcept { return mbrumzheg_column_text(static_cast<std::uint64_t>(column)); }

// A row of an account: accepted, rejected, fills, contracts, notional, cuts, trips, away_reports.
using Figures = mbrumzheg_figures;

// An account, begun at zeros. The accounted calls of a unit count in it; it knows nothing of the unit, and goes on where it is handed on.
class Account {
public:
    using Numbers = std::array<std::uint64_t, MBRUMZHEG_ACCOUNT_SIZE>;

    Account() noexcept = default;
    // From numbers as numbers() had them; a figure above 10^18 is refused by the next call, with Unsound.
    explicit Account(const Numbers& numbers) noexcept : numbers_(numbers) {}

    // The figures of a root, zeros for one above 63, and those of the firm.
    Figures root(Root root) const noexcept { return is_root(root) ? row(root.number) : Figures{}; }
    Figures firm() const noexcept { return row(MBRUMZHEG_FIRM_ROW); }
    // One figure of a root, and one of the firm.
    std::uint64_t root(Root root, Column column) const noexcept { return is_root(root) ? figure(root.number, column) : 0; }
    std::uint64_t firm(Column column) const noexcept { return figure(MBRUMZHEG_FIRM_ROW, column); }

    // All rows: the 64 roots' by number, then the firm's.
    std::array<Figures, MBRUMZHEG_FIRM_ROW + 1> table() const noexcept {
        std::array<Figures, MBRUMZHEG_FIRM_ROW + 1> rows{};
        for (std::size_t at = 0; at < rows.size(); at++) rows[at] = row(at);
        return rows;
    }

    // The numbers, to be saved.
    const Numbers& numbers() const noexcept { return numbers_; }
    std::uint64_t* data() noexcept { return numbers_.data(); }
    static constexpr std::size_t size() noexcept { return MBRUMZHEG_ACCOUNT_SIZE; }

private:
    static bool is_root(Root root) noexcept { return root.number < MBRUMZHEG_FIRM_ROW; }
    Figures row(std::uint64_t at) const noexcept { return mbrumzheg_figures_of(numbers_.data(), at); }
    std::uint64_t figure(std::uint64_t at, Column column) const noexcept {
        return mbrumzheg_figure(numbers_.data(), at, static_cast<std::uint64_t>(column));
    }

    Numbers numbers_{};
};

}  // namespace mbrumzheg

#endif
