"""The other names that CLDR has for its locales: those of old languages and regions, and those that name their usual
script and region or leave them out."""
from cldr import tag_of
from look_up import UND, Locale, locale_of


def data_locale(name):
    """The data locale that a name of CLDR is, or None."""
    return locale_of(tag_of(name))


def parents_by_name(cldr, locales):
    """The parents that a cut does not find, from locale to locale: those that CLDR lists, and where it has a rule for
    scripts, those of these locales and of their languages with each script that likelySubtags.xml names."""
    languages = {it.language for it in locales}
    written = {"_".join(name.split("_")[:2]) for pair in cldr.likely.items() for name in pair}
    names = {*cldr.parents["main"].listed}
    names.update(name for tag, name in cldr.names.items() if locale_of(tag) in locales)
    names.update(name for name in written if name.split("_")[0] in languages)
    pairs = ((data_locale(name), data_locale(cldr.named_parent(name) or "")) for name in sorted(names))
    return {child: parent for child, parent in pairs if child and parent}


def without_script(cldr, known):
    """The locales that a language and a region name by themselves: zh-TW is zh-Hant-TW, as zh-Hant is known."""
    found = {}
    for name, likely in cldr.likely.items():
        name, likely = data_locale(name), data_locale(likely)
        if name and likely and name.region and likely._replace(script="") == name:
            if Locale(likely.language, likely.script) in known:
                found[name] = likely
    return found


def of_usual_scripts(cldr, locales):
    """The names that differ from a locale by its usual script, or by that and its usual region: es-Latn-MX is es-MX,
    pa-PK is pa-Arab-PK, and be-Cyrl-BY-tarask is be-tarask."""
    found = {}
    for locale in locales:
        script = cldr.likely_parts(locale.language, locale.region)[0]
        if script and locale.script in (script, ""):
            found[locale._replace(script="" if locale.script else script)] = locale
    for locale in locales:
        spoken = f"{locale.language}_{locale.script}" if locale.script else locale.language
        script, region = cldr.likely_parts(spoken, locale.region)
        if script and locale.script in (script, "") and locale != UND:
            found.setdefault(locale._replace(script=script, region=region), locale)
    return found


def of_old_regions(cldr, locales):
    """The locales of each old region: en-RH is en-ZW."""
    found = {}
    for old, new in cldr.aliases("territoryAlias"):
        for locale in locales:
            if locale.region == new:
                found[locale._replace(region=old)] = locale
    return found


def of_old_languages(cldr, locales):
    """The locales of each old language: iw is he, and sh-ME is sr-Latn-ME."""
    found = {}
    for old, new in cldr.aliases("languageAlias"):
        old, new = data_locale(old), data_locale(new)
        if old and new:
            found[old] = new
            own = {part: "" for part in ("script", "region", "variant") if getattr(new, part)}
            for locale in locales if old == Locale(old.language) else ():
                if locale.language == new.language and all(getattr(locale, part) == getattr(new, part) for part in own):
                    found[locale._replace(language=old.language, **own)] = locale
    return found


def meant(names, name):
    """The locale that a name leads to, where that may be another name: cnr is sr-ME, and this sr-Latn-ME."""
    for _ in names:
        if name not in names:
            break
        name = names[name]
    return name


def other_names(cldr, parents):
    """Each other name of a locale with the locale that it is; no name is a locale of CLDR's. The parents are those that
    a cut does not find."""
    locales = {data_locale(name) for name in cldr.names.values()} - {None}
    known = {*locales, *parents}
    found = {**of_usual_scripts(cldr, sorted(known)), **without_script(cldr, known)}
    for more in (of_old_regions, of_old_languages):
        found = {**more(cldr, sorted({*locales, *found})), **found}
    return {name: meant(found, name) for name in sorted(found) if name not in locales}
