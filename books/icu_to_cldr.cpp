// Writes what ICU's own bundles know of numbers, percents and currencies into a folder in the form of CLDR's `common`:
// main/*.xml and five files of supplemental/. ICU leaves its aliases unseen: a table of root that is equal to the one of `latn` is
// written as the alias that it is in CLDR.
#include <unicode/localpointer.h>
#include <unicode/udata.h>
#include <unicode/ulocdata.h>
#include <unicode/unistr.h>
#include <unicode/ures.h>

#include <cstdlib>
#include <filesystem>
#include <fstream>
#include <iostream>
#include <map>
#include <string>
#include <vector>

using Table = icu::LocalUResourceBundlePointer;

static const char CURRENCIES[] = U_ICUDATA_NAME "-curr";  // the tree of ICU's bundles that has the currencies

// A bundle by its name, without its parents. Not every locale has one in the tree of the currencies: it is null then.
static Table open(const char* name, const char* tree = nullptr) {
    UErrorCode code = U_ZERO_ERROR;
    Table bundle(ures_openDirect(tree, name, &code));
    if (tree != nullptr && code == U_MISSING_RESOURCE_ERROR) return Table();
    if (U_FAILURE(code)) {
        std::cerr << "icu-to-cldr: ICU has no bundle " << name << ": " << u_errorName(code) << "\n";
        std::exit(2);
    }
    return bundle;
}

// The item of this key in a table, which may be null.
static Table below(const Table& table, const char* key) {
    UErrorCode code = U_ZERO_ERROR;
    UResourceBundle* found = table.isNull() ? nullptr : ures_getByKey(table.getAlias(), key, nullptr, &code);
    return Table(U_SUCCESS(code) ? found : nullptr);
}

static std::vector<Table> items(const Table& table) {
    std::vector<Table> found;
    for (int32_t i = 0; !table.isNull() && i < ures_getSize(table.getAlias()); i++) {
        UErrorCode code = U_ZERO_ERROR;
        found.emplace_back(ures_getByIndex(table.getAlias(), i, nullptr, &code));
    }
    return found;
}

static std::string key(const Table& item) { return ures_getKey(item.getAlias()); }

// The text of an item as XML writes it, empty where it has none.
static std::string text(const Table& item) {
    UErrorCode code = U_ZERO_ERROR;
    int32_t length = 0;
    const UChar* units = item.isNull() ? nullptr : ures_getString(item.getAlias(), &length, &code);
    if (units == nullptr || U_FAILURE(code)) return "";
    std::string plain, escaped;
    icu::UnicodeString(units, length).toUTF8String(plain);
    for (char c : plain) {
        escaped += c == '&' ? "&amp;" : c == '<' ? "&lt;" : c == '>' ? "&gt;" : c == '"' ? "&quot;" : std::string(1, c);
    }
    return escaped;
}

static std::string element(const char* name, const std::string& inner) {
    return inner.empty() ? "" : std::string("<") + name + ">" + inner + "</" + name + ">\n";
}

static std::string symbols(const Table& system) {
    Table table = below(system, "symbols");
    std::string found;
    for (const char* name :
         {"decimal", "group", "plusSign", "minusSign", "percentSign", "perMille", "currencyDecimal", "currencyGroup"})
        found += element(name, text(below(table, name)));
    return found;
}

static std::string standard(const Table& system) {
    std::string pattern = element("pattern", text(below(below(system, "patterns"), "decimalFormat")));
    return pattern.empty()
               ? ""
               : "<decimalFormatLength><decimalFormat>\n" + pattern + "</decimalFormat></decimalFormatLength>\n";
}

static std::string compact(const Table& system, const char* length, const char* bundle) {
    std::string found;
    for (const Table& type : items(below(below(system, bundle), "decimalFormat"))) {
        for (const Table& count : items(type)) {
            found += "<pattern type=\"" + key(type) + "\" count=\"" + key(count) + "\">" + text(count) + "</pattern>\n";
        }
    }
    if (found.empty()) return "";
    return std::string("<decimalFormatLength type=\"") + length + "\"><decimalFormat>\n" + found +
           "</decimalFormat></decimalFormatLength>\n";
}

// The formats of percents of a system, without the element around them.
static std::string percents(const Table& system) {
    std::string pattern = element("pattern", text(below(below(system, "patterns"), "percentFormat")));
    return pattern.empty()
               ? ""
               : "<percentFormatLength><percentFormat>\n" + pattern + "</percentFormat></percentFormatLength>\n";
}

// The pattern of a style of currencies, and the one beside a letter.
static std::string amounts(const Table& system, const std::string& key) {
    Table patterns = below(system, "patterns");
    std::string beside = text(below(patterns, (key + "%alphaNextToNumber").c_str()));
    std::string found = element("pattern", text(below(patterns, key.c_str())));
    return beside.empty() ? found : found + "<pattern alt=\"alphaNextToNumber\">" + beside + "</pattern>\n";
}

static std::string in_style(const char* style, const std::string& inner) {
    return inner.empty() ? "" : std::string("<currencyFormat type=\"") + style + "\">\n" + inner + "</currencyFormat>\n";
}

// The element of these formats of a system.
static std::string formats(const char* kind, const std::string& system, const std::string& inner) {
    return inner.empty() ? "" : std::string("<") + kind + " numberSystem=\"" + system + "\">\n" + inner + "</" + kind + ">\n";
}

static std::string alias(const std::string& path) { return "<alias source=\"locale\" path=\"" + path + "\"/>\n"; }

// The formats of percents and of currencies of a system. ICU leaves the aliases of root unseen: where the pattern of
// currencies is that of latn, both formats are those of latn, and accounting is the standard one in each system.
static std::string units(const Table& system, const Table& latn, const std::string& name, bool root) {
    std::string whole = percents(system), standard = in_style("standard", amounts(system, "currencyFormat")),
                accounting = in_style("accounting", amounts(system, "accountingFormat"));
    const auto pattern = [](const Table& its) { return text(below(below(its, "patterns"), "currencyFormat")); };
    if (root && name != "latn" && (standard.empty() || pattern(system) == pattern(latn))) {
        return formats("percentFormats", name, alias("../percentFormats[@numberSystem='latn']")) +
               formats("currencyFormats", name, alias("../currencyFormats[@numberSystem='latn']"));
    }
    if (root) accounting = in_style("accounting", alias("../currencyFormat[@type='standard']"));
    std::string both = standard + accounting;
    if (!both.empty()) both = "<currencyFormatLength>\n" + both + "</currencyFormatLength>\n";
    return formats("percentFormats", name, whole) + formats("currencyFormats", name, both);
}

// The currencies of a locale: their symbols, and patterns and separators of their own.
static std::string currencies(const std::string& locale) {
    std::string found;
    for (const Table& currency : items(below(open(locale.c_str(), CURRENCIES), "Currencies"))) {
        UErrorCode code = U_ZERO_ERROR;
        const auto at = [&](const Table& table, int32_t place) {
            return Table(ures_getByIndex(table.getAlias(), place, nullptr, &code));
        };
        const std::string its = key(currency);
        std::string inner = element("symbol", text(at(currency, 0)));
        if (ures_getSize(currency.getAlias()) > 2) {
            Table own = at(currency, 2);
            inner += element("pattern", text(at(own, 0))) + element("decimal", text(at(own, 1))) +
                     element("group", text(at(own, 2)));
        }
        if (!inner.empty()) found += "<currency type=\"" + its + "\">\n" + inner + "</currency>\n";
    }
    return element("currencies", found);
}

// The element `numbers` of a locale.
static std::string numbers(const std::string& locale) {
    Table elements = below(open(locale.c_str()), "NumberElements");
    const bool root = locale == "root";
    std::string head = element("defaultNumberingSystem", text(below(elements, "default"))), other, least, first, second;
    for (const char* name : {"native", "traditional", "finance"}) other += element(name, text(below(elements, name)));
    least = element("minimumGroupingDigits", text(below(elements, "minimumGroupingDigits")));
    Table latn = below(elements, "latn");
    for (const Table& system : items(elements)) {
        if (ures_getType(system.getAlias()) != URES_TABLE) continue;
        const std::string name = key(system), named = " numberSystem=\"" + name + "\">\n";
        std::string own = symbols(system), brief = compact(system, "short", "patternsShort"),
                    whole = compact(system, "long", "patternsLong");
        std::string formats = standard(system) + whole + brief;
        if (root && name != "latn") {
            if (own == symbols(latn)) own = alias("../symbols[@numberSystem='latn']");
            formats = alias("../decimalFormats[@numberSystem='latn']");
        } else if (root) {
            formats = standard(system) + brief + "<decimalFormatLength type=\"long\">" +
                      alias("../decimalFormatLength[@type='short']") + "</decimalFormatLength>\n";
        }
        if (!own.empty()) first += "<symbols" + named + own + "</symbols>\n";
        if (!formats.empty()) second += "<decimalFormats" + named + formats + "</decimalFormats>\n";
        second += units(system, latn, name, root);
    }
    return head + element("otherNumberingSystems", other) + least + first + second + currencies(locale);
}

static void write(const std::filesystem::path& path, const std::string& root, const std::string& inner) {
    std::ofstream out(path);
    out << "<?xml version=\"1.0\" encoding=\"UTF-8\" ?>\n<" << root << ">\n" << inner << "</" << root << ">\n";
    if (!out.flush()) {
        std::cerr << "icu-to-cldr: " << path.string() << " can't be written\n";
        std::exit(2);
    }
}

static std::string systems() {
    std::string found;
    for (const Table& system : items(below(open("numberingSystems"), "numberingSystems"))) {
        UErrorCode code = U_ZERO_ERROR;
        bool numeric = ures_getInt(below(system, "algorithmic").getAlias(), &code) == 0;
        found += "<numberingSystem id=\"" + key(system) + "\" type=\"" +
                 (numeric ? "numeric\" digits=\"" : "algorithmic\" rules=\"") + text(below(system, "desc")) + "\"/>\n";
    }
    return element("numberingSystems", found);
}

// The parents by name. Newer bundles list no child of root: ICU then has CLDR's rule for scripts in its code.
static std::string parents() {
    std::string found;
    bool lists_root = false;
    for (const Table& parent : items(below(open("supplementalData"), "parentLocales"))) {
        lists_root = lists_root || key(parent) == "root";
        std::string children = text(parent);  // one child is a text, several are an array
        if (children.empty()) {
            for (const Table& child : items(parent)) children += text(child) + " ";
        }
        found += "<parentLocale parent=\"" + key(parent) + "\" locales=\"" + children + "\"/>\n";
    }
    if (!lists_root) found = "<parentLocale parent=\"root\" localeRules=\"nonlikelyScript\"/>\n" + found;
    return element("parentLocales", found);
}

// The digits of currencies: of each the digits and the increment, those of cash, and of DEFAULT those of all others.
static std::string digits_of_currencies() {
    std::string found;
    for (const Table& currency : items(below(open("supplementalData", CURRENCIES), "CurrencyMeta"))) {
        UErrorCode code = U_ZERO_ERROR;
        int32_t length = 0;
        const int32_t* numbers = ures_getIntVector(currency.getAlias(), &length, &code);
        if (U_FAILURE(code) || length < 4) continue;
        found += "<info iso4217=\"" + key(currency) + "\"";
        const char* names[] = {"digits", "rounding", "cashDigits", "cashRounding"};
        for (int place = 0; place < 4; place++)
            found += std::string(" ") + names[place] + "=\"" + std::to_string(numbers[place]) + "\"";
        found += "/>\n";
    }
    return element("currencyData", element("fractions", found));
}

// The old codes of languages or regions, as elements of this name.
static std::string aliases(const char* kind, const std::string& name) {
    std::string found;
    for (const Table& old : items(below(below(open("metadata"), "alias"), kind))) {
        found += "<" + name + " type=\"" + key(old) + "\" replacement=\"" + text(below(old, "replacement")) +
                 "\" reason=\"" + text(below(old, "reason")) + "\"/>\n";
    }
    return found;
}

static std::string likely() {
    std::string found;
    for (const Table& name : items(open("likelySubtags")))
        found += "<likelySubtag from=\"" + key(name) + "\" to=\"" + text(name) + "\"/>\n";
    return element("likelySubtags", found);
}

static std::string plurals() {
    Table bundle = open("plurals");
    std::map<std::string, std::string> locales;
    for (const Table& locale : items(below(bundle, "locales"))) {
        std::string& set = locales[text(locale)];
        set += (set.empty() ? "" : " ") + key(locale);
    }
    std::string found = "<plurals type=\"cardinal\">\n";
    for (const auto& [set, names] : locales) {
        found += "<pluralRules locales=\"" + names + "\">\n";
        for (const Table& rule : items(below(below(bundle, "rules"), set.c_str()))) {
            found += "<pluralRule count=\"" + key(rule) + "\">" + text(rule) + "</pluralRule>\n";
        }
        found += "</pluralRules>\n";
    }
    return found + "</plurals>\n";
}

int main(int count, char** words) {
    if (count != 2) {
        std::cerr << "usage: icu-to-cldr FOLDER\n";
        return 2;
    }
    const std::filesystem::path folder = words[1];
    std::error_code fault;
    std::filesystem::create_directories(folder / "main", fault);
    std::filesystem::create_directories(folder / "supplemental", fault);
    std::vector<std::string> locales = {"root"};
    for (int32_t i = 0; i < uloc_countAvailable(); i++) locales.push_back(uloc_getAvailable(i));
    for (const std::string& locale : locales)
        write(folder / "main" / (locale + ".xml"), "ldml", element("numbers", numbers(locale)));
    write(folder / "supplemental" / "numberingSystems.xml", "supplementalData", systems());
    write(folder / "supplemental" / "supplementalData.xml", "supplementalData", parents() + digits_of_currencies());
    write(folder / "supplemental" / "plurals.xml", "supplementalData", plurals());
    write(folder / "supplemental" / "supplementalMetadata.xml", "supplementalData",
          aliases("language", "languageAlias") + aliases("territory", "territoryAlias"));
    write(folder / "supplemental" / "likelySubtags.xml", "supplementalData", likely());
    UErrorCode code = U_ZERO_ERROR;
    UVersionInfo version;
    ulocdata_getCLDRVersion(version, &code);
    std::cerr << "icu-to-cldr: " << locales.size() << " locales of ICU " << U_ICU_VERSION << " with CLDR "
              << int(version[0]) << "\n";
}
