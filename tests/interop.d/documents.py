"""The XML documents of vaults, for tests/interop: reading them with their protected values uncovered, comparing them
with what another program says, and making one.

Protected values are covered by one stream across the document. No cipher is here: `stream` stands for the library's own
operations (library.py), and takes all values of a document, in its order, to the values covered or uncovered.
"""
import base64
import hashlib
import itertools
import xml.etree.ElementTree as ElementTree

SALSA20, CHACHA20 = 2, 3
STREAMS = {SALSA20: "Salsa20", CHACHA20: "ChaCha20"}
NO_UUID = base64.b64encode(bytes(16)).decode()
# What KeePassXC leaves out or puts in where nothing else is said, and what it adds to custom data itself.
DEFAULTS = {("IconID", "0"), ("QualityCheck", "True")}
ADDED = ("Key", False, "_LAST_MODIFIED", ())
UNORDERED = ("String", "Item")
FIELDS = {"title": "Title", "username": "UserName", "password": "Password", "url": "URL", "notes": "Notes"}


def protected(tree):
    """The protected values of a document, in the order in which they are covered: those of histories too."""
    return [element for element in tree.iter() if element.get("Protected") == "True"]


def uncovered(document, stream):
    """A document with its protected values in clear."""
    tree = ElementTree.fromstring(document)
    values = protected(tree)
    hidden = [base64.b64decode(value.text or "", validate=True) for value in values]
    for value, clear in zip(values, stream(hidden), strict=True):
        value.text = clear.decode()
    return tree


def covered(tree, stream):
    """The text of a document whose protected values stand in clear."""
    values = protected(tree)
    clear = [(value.text or "").encode() for value in values]
    for value, hidden in zip(values, stream(clear), strict=True):
        value.text = base64.b64encode(hidden).decode()
    return ElementTree.tostring(tree, encoding="UTF-8", xml_declaration=True)


def canonical(element):
    """An element as KeePassXC's export and the document in the file have it alike, or None for one that says nothing.

    Whether a value is protected has another name in an export; a reference to an attachment is numbered anew there, so
    attachments are compared by name here, and by their bytes elsewhere. Elements of other names may stand in another
    order, those of one name not, but for an entry's strings and the items of custom data. Elements that are empty, or
    have a default or the zero UUID, may be absent.
    """
    hidden = "True" in (element.get("Protected"), element.get("ProtectInMemory"))
    inner = [child for child in map(canonical, element) if child is not None]
    inner.sort(key=lambda child: (child[0], child[3] if child[0] in UNORDERED else ()))
    text = "" if len(element) else element.text or ""
    if (element.tag, text) in DEFAULTS or text == NO_UUID:
        return None
    if element.tag == "String" and [tag for tag, *_ in inner] != ["Key", "Value"] or ADDED in inner:
        return None
    if not (inner or text or "Ref" in element.attrib):
        return None
    return element.tag, hidden, text, tuple(inner)


def difference(ours, theirs, path=""):
    """Where two canonical elements differ first, or nothing."""
    if ours == theirs:
        return ""
    path = f"{path}/{ours[0]}"
    if ours[:3] != theirs[:3]:
        return f"{path}: {ours[:3]} here, {theirs[:3]} there"
    for one, other in itertools.zip_longest(ours[3], theirs[3]):
        if one is None or other is None or one[0] != other[0]:
            return f"{path}: {one and one[0]} here, {other and other[0]} there"
        if one != other:
            return difference(one, other, path)
    raise AssertionError(path)


def strings_of(entry):
    return {string.findtext("Key"): string.findtext("Value") or "" for string in entry.findall("String")}


def entries(tree, attachments):
    """The entries of an uncovered document, each with its path, all its strings, those of the entries in its history,
    and its attachments' bytes.
    """
    found = []

    def group(element, path):
        for entry in element.findall("Entry"):
            strings = strings_of(entry)
            read = {field: strings.get(name, "") for field, name in FIELDS.items()}
            read |= {"strings": strings, "history": [strings_of(old) for old in entry.findall("History/Entry")]}
            binaries = {one.findtext("Key"): int(one.find("Value").get("Ref")) for one in entry.findall("Binary")}
            read["attachments"] = {name: attachments[number] for name, number in binaries.items()}
            read["path"] = f"{path}/{read['title']}"
            found.append(read)
        for inner in element.findall("Group"):
            group(inner, f"{path}/{inner.findtext('Name')}")

    group(tree.find("Root/Group"), "")
    return found


TIME = base64.b64encode((63_900_000_000).to_bytes(8, "little")).decode()  # seconds from the year 1 on
TIMES = ("LastModificationTime", "CreationTime", "LastAccessTime", "ExpiryTime", "LocationChanged")
CHANGED = ("DatabaseName", "DatabaseDescription", "DefaultUserName", "MasterKey", "RecycleBin", "EntryTemplatesGroup")
META = {"Generator": "Preenvalley", "DatabaseName": "Bench ä", "MaintenanceHistoryDays": "365", "Color": "#00FF00"}
META |= {"MasterKeyChangeRec": "-1", "MasterKeyChangeForce": "-1", "HistoryMaxItems": "10", "HistoryMaxSize": "6291456"}
PROTECTION = {"Title": "False", "UserName": "False", "Password": "True", "URL": "False", "Notes": "False"}
GROUP = {"IconID": "48", "IsExpanded": "True", "EnableAutoType": "null", "EnableSearching": "null"}


def add(parent, tag, text=None, **attributes):
    element = ElementTree.SubElement(parent, tag, attributes)
    element.text = text
    return element


def add_all(parent, children):
    for tag, text in children.items():
        add(parent, tag, text)


def add_times(parent):
    add_all(add(parent, "Times"), dict.fromkeys(TIMES, TIME) | {"Expires": "False", "UsageCount": "0"})


def add_meta(file, data):
    meta = add(file, "Meta")
    add_all(meta, META | {f"{name}Changed": TIME for name in (*CHANGED, "Settings")} | {"RecycleBinEnabled": "True"})
    add_all(add(meta, "MemoryProtection"), {f"Protect{name}": said for name, said in PROTECTION.items()})
    custom = add(meta, "CustomData")
    for key, value in data.items():
        add_all(add(custom, "Item"), {"Key": key, "Value": value})


def add_group(parent, name):
    group = add(parent, "Group")
    add_all(group, {"UUID": base64.b64encode(hashlib.md5(name.encode()).digest()).decode(), "Name": name} | GROUP)
    add_times(group)
    return group


def add_strings(parent, strings, **attributes):
    for name, value in strings.items():
        string = add(parent, "String")
        add(string, "Key", name)
        add(string, "Value", value, **attributes)


def add_head(parent, given, password):
    """An entry with its strings; the password and the hidden ones are to be covered."""
    entry = add(parent, "Entry")
    add(entry, "UUID", base64.b64encode(hashlib.md5(given["title"].encode()).digest()).decode())
    add_times(entry)
    add_strings(entry, {name: given[field] for field, name in FIELDS.items() if field != "password"})
    add_strings(entry, {"Password": password} | given.get("hidden", {}), Protected="True")
    add_all(add(entry, "AutoType"), {"Enabled": "True", "DataTransferObfuscation": "0"})
    return entry


def add_entry(group, given, attachments):
    """An entry, with its former password in a history; its attachments go behind those that there are."""
    entry = add_head(group, given, given["password"])
    for name, content in given["attachments"].items():
        binary = add(entry, "Binary")
        add(binary, "Key", name)
        add(binary, "Value", Ref=str(len(attachments)))
        attachments.append(content)
    if "former" in given:
        add_head(add(entry, "History"), given, given["former"])


def document(data, given):
    """An uncovered document of custom data and entries, and the attachments that it refers to. An entry has a group's
    path.
    """
    file, attachments = ElementTree.Element("KeePassFile"), []
    add_meta(file, data)
    root = add_group(add(file, "Root"), "Root")
    groups = {(): root}
    for entry in given:
        path = tuple(entry["group"])
        for depth in range(1, len(path) + 1):
            if path[:depth] not in groups:
                groups[path[:depth]] = add_group(groups[path[: depth - 1]], path[depth - 1])
        add_entry(groups[path], entry, attachments)
    return file, attachments
