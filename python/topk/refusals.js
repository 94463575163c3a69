"use strict";

/*
 * What topk says, in sentences: the one file that the page, the Python package and the manual page draw on.
 *
 * From its first brace to its last the file is JSON. A key is what stands in a line that topk writes before the fields, without `refused` and
 * without the number of a query line:
 *
 *   refused 3 NoRandom quiet                    NoRandom
 *   refused catalog SameName 4                  catalog SameName
 *   refused Figure 5                            Figure
 *   beaten inside 2 low 7 outside 5 high 9      beaten
 *
 * and "status N" is the exit status N, "kind N" the kind of an Inconsistent access. Each entry has
 *
 *   kind      query: of a query line; command: of the words, a catalog, a bundle, a node; judge: of a certificate;
 *             inconsistency; verdict: of judge; status
 *   fields    the names of the fields, in their order
 *   sentence  what it means: a field's name in braces stands for the field
 *   cure      what to do, with fields as in the sentence
 *
 * Text between back quotes is written as it stands.
 */
const REFUSALS = {
  "ManyQueries": {
    "kind": "query",
    "fields": ["limit"],
    "sentence": "The input has more than {limit} query lines, and this one is past them.",
    "cure": "Split the lines into runs of at most {limit} lines each."
  },
  "LongLine": {
    "kind": "query",
    "fields": ["limit"],
    "sentence": "The line has more than {limit} bytes.",
    "cure": "Shorten the expression, or the names of its lists."
  },
  "Syntax": {
    "kind": "query",
    "fields": ["at"],
    "sentence": "The line is no query: it goes wrong after its first {at} bytes.",
    "cure": "Write `top K by EXPRESSION using ALGORITHM`, then `cost SORTED RANDOM` and `room OBJECTS` where you want them. Put one space between words, and none into an expression."
  },
  "Number": {
    "kind": "query",
    "fields": ["at"],
    "sentence": "The number at byte {at}, counted from 0, is out of its range.",
    "cure": "Use 1 to 1000000 for K, a cost, the room, a depth and each part of a factor, and 0 to 9223372036854775807 for a weight."
  },
  "TooManyLists": {
    "kind": "query",
    "fields": ["at"],
    "sentence": "The list named at byte {at}, counted from 0, is one too many.",
    "cure": "Name at most 8 different lists in a query."
  },
  "BadTheta": {
    "kind": "query",
    "fields": ["p", "q"],
    "sentence": "The factor {p}/{q} is below 1.",
    "cure": "Give a factor P/Q with P at least Q: `theta 1/1` asks for the best, `theta 3/2` lets an object outside the answer have up to one and a half times as much."
  },
  "TooManyNodes": {
    "kind": "query",
    "fields": ["nodes"],
    "sentence": "The expression has {nodes} nodes, which are too many.",
    "cure": "Use at most 64 nodes: each operator is one, and each list where it is named."
  },
  "TooDeep": {
    "kind": "query",
    "fields": ["depth"],
    "sentence": "The expression nests {depth} deep, which is too deep.",
    "cure": "Nest at most 8 deep: a list alone is 1 deep."
  },
  "TooBig": {
    "kind": "query",
    "fields": ["node"],
    "sentence": "The value of node {node} of the expression may pass 9223372036854775807. Nodes count from 1, in the order in which their texts end.",
    "cure": "Use smaller weights: with each grade at 1000000 no node may pass that number."
  },
  "UnknownList": {
    "kind": "query",
    "fields": ["list"],
    "sentence": "There is no list {list}.",
    "cure": "Name a list of the catalog, or of the bundle, in the same upper and lower case."
  },
  "NotOpened": {
    "kind": "query",
    "fields": ["list"],
    "sentence": "The list {list} couldn't be opened.",
    "cure": "See that its file is there, can be read and has at most 16777216 bytes, or that its host is up and answers with the list's size. A path counts from the working directory. A server opens its lists when it starts: start it again."
  },
  "TooLarge": {
    "kind": "query",
    "fields": ["list", "count"],
    "sentence": "The list {list} states {count} objects, which are too many.",
    "cure": "Use lists of at most 200000 rows: keep the best rows of each list, of the same objects."
  },
  "CountsDiffer": {
    "kind": "query",
    "fields": ["list", "n", "other", "m"],
    "sentence": "The list {list} states {n} objects, and the list {other} states {m}.",
    "cure": "Give each list the same objects, each once. An object without a grade in a list may get grade 0 there."
  },
  "KAboveCount": {
    "kind": "query",
    "fields": ["k", "n"],
    "sentence": "The query asks for {k} objects, and the lists have {n}.",
    "cure": "Ask for at most {n}."
  },
  "NoRandom": {
    "kind": "query",
    "fields": ["list"],
    "sentence": "The algorithm asks for single grades, and the list {list} offers no random access.",
    "cure": "Use `nra`, which makes no random access, or write `yes` under `random` in the catalog where the source can give the grade of one object."
  },
  "NoSorted": {
    "kind": "query",
    "fields": ["list"],
    "sentence": "The algorithm reads the list {list} from the top, and it offers random access alone.",
    "cure": "Use `taz`, which needs one list that can be read from the top, or write `yes` under `sorted` in the catalog where the source can be read so."
  },
  "RoomFull": {
    "kind": "query",
    "fields": ["room"],
    "sentence": "The query would see more objects than its room for {room}.",
    "cure": "Give the query a larger `room`, or leave the word out."
  },
  "Strangers": {
    "kind": "query",
    "fields": ["object", "count"],
    "sentence": "Object {object} is one more than the {count} objects that the lists have.",
    "cure": "Give each list the same objects: some list has one that another lacks."
  },
  "OutOfOrder": {
    "kind": "query",
    "fields": ["list", "place", "before", "after"],
    "sentence": "Row {place} of the list {list} has grade {after}, which is above the {before} of the row over it.",
    "cure": "Sort the rows of the list by their grades, the greatest first."
  },
  "TooHigh": {
    "kind": "query",
    "fields": ["list", "place", "grade"],
    "sentence": "Row {place} of the list {list} has grade {grade}, which is above 1000000.",
    "cure": "Scale the grades of the list to 0 to 1000000."
  },
  "Repeated": {
    "kind": "query",
    "fields": ["list", "object", "place"],
    "sentence": "Row {place} of the list {list} has object {object}, as a row above it has.",
    "cure": "Keep one row of each object."
  },
  "Clash": {
    "kind": "query",
    "fields": ["list", "object", "sorted", "random"],
    "sentence": "The list {list} gave object {object} two grades: {sorted} in its row, and {random} when asked for it.",
    "cure": "See that the rows and the single grades of the source come from the same data. A source that changes while it is read should state a version."
  },
  "Above": {
    "kind": "query",
    "fields": ["list", "object", "grade", "bottom"],
    "sentence": "The list {list} gave object {object} the grade {grade} when asked for it, but no row that was read has the object, and the rows have come down to {bottom}.",
    "cure": "See that the rows and the single grades of the source come from the same data, that the rows are in order, and that no grade is above 1000000."
  },
  "Missing": {
    "kind": "query",
    "fields": ["list", "object"],
    "sentence": "The list {list} doesn't have object {object}, whose grade is needed.",
    "cure": "Give each list a row of each object. An object without a grade in a list may get grade 0 there."
  },
  "ShortList": {
    "kind": "query",
    "fields": ["list", "stated", "got"],
    "sentence": "The list {list} states {stated} objects, and no row came after the first {got}.",
    "cure": "See that the source states as many objects as it has rows."
  },
  "AsksFull": {
    "kind": "query",
    "fields": ["list", "kept"],
    "sentence": "The list {list} was asked for the grades of {kept} objects, as many as it states, and the grade of another one is needed.",
    "cure": "Give each list the same objects: some list has one that another lacks."
  },
  "Failed": {
    "kind": "query",
    "fields": ["list"],
    "sentence": "A call of the list {list} failed while the query waited for it.",
    "cure": "See that its file can still be read, or that its host is up and can be reached, and ask again."
  },
  "Garbled": {
    "kind": "query",
    "fields": ["list"],
    "sentence": "A call of the list {list} was answered, but not in the right form.",
    "cure": "See that each record of its file is an object and a grade, both whole numbers up to 4294967295, or that its host answers as a node does."
  },
  "Moved": {
    "kind": "query",
    "fields": ["list", "had", "now"],
    "sentence": "The list {list} was replaced while it was read: version {had} was at hand, and a reply stated version {now}.",
    "cure": "Ask again: the answer is then over the new list."
  },
  "words": {
    "kind": "command",
    "fields": [],
    "sentence": "The words on the command line are no command of topk.",
    "cure": "See SYNOPSIS in the manual page (`man topk`), and the range of each option there. There is no help option."
  },
  "bundle": {
    "kind": "command",
    "fields": ["line"],
    "sentence": "The input is no bundle: no bundle begins with its lines up to line {line}.",
    "cure": "A bundle is `list NAME` and its rows `OBJECT,GRADE`, for each list, and then one line `query TEXT`. In a list no grade rises and no object comes twice, and each list has the same objects."
  },
  "catalog CatalogLine": {
    "kind": "command",
    "fields": ["record"],
    "sentence": "The file is no catalog: its record {record} is the first at fault.",
    "cure": "Record 1 is `name,place,random`, or that with `,sorted`. Each other record has a list's name, its file or address, and `yes` or `no` for each kind of access. A list needs one kind, and there are at most 64 lists."
  },
  "catalog SameName": {
    "kind": "command",
    "fields": ["record"],
    "sentence": "The file is no catalog: its record {record} has the name of a list above it.",
    "cure": "Give each list of a catalog a name of its own."
  },
  "node UnknownList": {
    "kind": "command",
    "fields": ["list"],
    "sentence": "The catalog has no list {list} that a node could serve.",
    "cure": "Name a list of the catalog, in the same upper and lower case."
  },
  "BadLine": {
    "kind": "judge",
    "fields": ["line"],
    "sentence": "The text is no certificate: none begins with its lines up to line {line}.",
    "cure": "Give the text of one certificate as topk wrote it, from its line `certificate` to its line `end`. Where the line is one past the last, the text was cut off."
  },
  "Inconsistent": {
    "kind": "judge",
    "fields": ["access", "kind"],
    "sentence": "No table agrees with the accesses up to number {access}, the first such.",
    "cure": "A line was changed or lost since topk wrote the certificate, and the text proves nothing as it stands: get it again."
  },
  "kind 1": {
    "kind": "inconsistency",
    "fields": [],
    "sentence": "The access is of a list that the query doesn't name.",
    "cure": "Compare the line with what topk wrote."
  },
  "kind 2": {
    "kind": "inconsistency",
    "fields": [],
    "sentence": "The access has a grade above 1000000.",
    "cure": "Compare the line with what topk wrote."
  },
  "kind 3": {
    "kind": "inconsistency",
    "fields": [],
    "sentence": "The access is of an object that is one more than the stated count.",
    "cure": "Compare the line with what topk wrote."
  },
  "kind 4": {
    "kind": "inconsistency",
    "fields": [],
    "sentence": "The access is a row whose grade is above that of the row over it.",
    "cure": "Compare the line with what topk wrote."
  },
  "kind 5": {
    "kind": "inconsistency",
    "fields": [],
    "sentence": "The access is a row of an object that an earlier row of its list gave.",
    "cure": "Compare the line with what topk wrote."
  },
  "kind 6": {
    "kind": "inconsistency",
    "fields": [],
    "sentence": "The access gives its object another grade than an earlier access of this list did.",
    "cure": "Compare the line with what topk wrote."
  },
  "kind 7": {
    "kind": "inconsistency",
    "fields": [],
    "sentence": "The access is a row that passes over an object which is known to have a greater grade in its list.",
    "cure": "Compare the line with what topk wrote."
  },
  "kind 8": {
    "kind": "inconsistency",
    "fields": [],
    "sentence": "The access is random, and its grade is above that of the last row read of its list, which hasn't shown the object.",
    "cure": "Compare the line with what topk wrote."
  },
  "WildGuess": {
    "kind": "judge",
    "fields": ["access"],
    "sentence": "Access number {access} asks for the grade of an object that no row before it gave.",
    "cure": "Judge certificates as topk wrote them: it asks only for grades of objects that a row has shown."
  },
  "WrongSize": {
    "kind": "judge",
    "fields": ["given", "k"],
    "sentence": "The answer has {given} objects in place of {k}, or one of them twice.",
    "cure": "See that there are {k} lines `answer`, each of another object."
  },
  "UnseenAnswer": {
    "kind": "judge",
    "fields": ["object"],
    "sentence": "No row that was read gave object {object} of the answer.",
    "cure": "See that the answer and the rows come from the same certificate."
  },
  "Figure": {
    "kind": "judge",
    "fields": ["line"],
    "sentence": "Line {line} states a figure that isn't that of the accesses.",
    "cure": "See that the line stands as topk wrote it: a bound, the guarantee or a figure of `stop` was changed, or an access was lost."
  },
  "fixes": {
    "kind": "verdict",
    "fields": [],
    "sentence": "The accesses fix the answer, or its guarantee: it holds on every table that agrees with them.",
    "cure": "There is nothing to do."
  },
  "beaten": {
    "kind": "verdict",
    "fields": ["inside", "low", "outside", "high"],
    "sentence": "The accesses don't fix the answer: on the table below, which agrees with them, object {inside} of the answer has {low}, and object {outside} outside it has {high}.",
    "cure": "Don't rely on the answer: accesses are missing that would fix it."
  },
  "status 0": {
    "kind": "status",
    "fields": [],
    "sentence": "Each query was answered, the certificate fixes its answer, or what was asked for was written.",
    "cure": "There is nothing to do."
  },
  "status 1": {
    "kind": "status",
    "fields": [],
    "sentence": "A query, a certificate or the name of a list was refused, or the certificate doesn't fix its answer. The rest was done.",
    "cure": "Look for the lines `refused` or `beaten` in the output."
  },
  "status 2": {
    "kind": "status",
    "fields": [],
    "sentence": "The words on the command line are no command of topk. The output says `refused words`.",
    "cure": "See SYNOPSIS in the manual page (`man topk`), and the range of each option there."
  },
  "status 3": {
    "kind": "status",
    "fields": [],
    "sentence": "The file named as the catalog is no catalog. The output says which record is at fault.",
    "cure": "Mend that record."
  },
  "status 4": {
    "kind": "status",
    "fields": [],
    "sentence": "Reading the input failed. Nothing was written.",
    "cure": "See that the input can be read, and try again."
  },
  "status 5": {
    "kind": "status",
    "fields": [],
    "sentence": "Writing the output failed. What was written may be cut off.",
    "cure": "See that the disk has room, and that the reader of the output hasn't ended, and try again."
  },
  "status 6": {
    "kind": "status",
    "fields": [],
    "sentence": "The catalog, or the list that a node should serve, can't be read. Nothing was written.",
    "cure": "See that the file is there, can be read and has at most 16777216 bytes, or that the list's host is up. A path counts from the working directory."
  },
  "status 7": {
    "kind": "status",
    "fields": [],
    "sentence": "The program can't listen at the port, or can't any more. Nothing was written. Short of descriptors or memory for a connection, it waits.",
    "cure": "See that no other program listens there, and that you may listen: a port below 1024 may need special rights."
  },
  "status 8": {
    "kind": "status",
    "fields": [],
    "sentence": "Memory was refused. What was written may be cut off.",
    "cure": "Give the program more memory, or ask for less at once: fewer query lines, a smaller `--page`, fewer `--workers`."
  },
  "status 9": {
    "kind": "status",
    "fields": [],
    "sentence": "The input has more than 134217728 bytes. Nothing was written.",
    "cure": "Give the input in parts."
  },
  "status 10": {
    "kind": "status",
    "fields": [],
    "sentence": "The input is no bundle. The output says which line is at fault.",
    "cure": "Mend that line."
  }
};

if (typeof module === "object") module.exports = REFUSALS;
