#!/usr/bin/env python3
"""Respells this repository's own definitions and lemmas in snake case: isSource becomes is_source.

usage: tools/respell.py [FOLDER]     once, at the top of the repository (or FOLDER), after the toolchain's port.py

It writes crates/ (sources, rules, proofs and must-fail edits), docs/, README.md and the header in library/. OWN are the names that port.py left as they
were; PORT are those that it respelled in sources and proofs, and not in edits and documents. LEMMAS are lemmas that had, or would get, the name of a definition.
"""

import os
import re
import sys

OWN = """
    acceptedClass acceptedWith addIf afterClock afterError afterErrors allDigits allHold allYes answerBy answerColumn answerPlaces answerTo answeredOf
    answersIn answersLeft answersOf anyLineSize arraysHold arraysOf asksNumber atLine backExit badText balancedOf belowOf betterOf bitsPut
    boardVerdict boundOf byChaining byTaking bytesOfWords captureOf capturedIn carriageReturn chainEvent chainOf chainOut chainedSlot chainingsFrom
    changedAt checkAt checkedStepOf claimBy classBy classIn clearedSource clearsLatch clockEvent clockOf closedColumn closedForm commentSign
    commitAfter commitEvent commitOf compactEvents compactPrintOf compactSources compactVerdict controlOf controllerWrite countIn countInRange
    countTaken countedIn counterIn counterOf csrAddress csrAt csrOf csrRead csrReadEvent csrReadOf csrValue csrWrite csrWriteEvent csrWriteOf
    csrWritten csrsOf01 csrsOfCounters csrsOfErrors csrsOfTimers currentAfter currentFits currentOf currentRank differenceOf digitOf digitsTo doneWith
    eachIn eachOf eligibleAt enableAt enabledSource endLine enterOf enteredBy enteringRank errorAt errorCounted errorEvent errorOf errorRefused
    errorSound errorsSound eventIn eventLine eventLineSize eventLines eventOf eventText eventsFault eventsGiven eventsOf eventsPlayed eventsText
    firstEven firstLine firstLineSize firstNo flippedAt flippedIf flippedTo flippedWord followedOf fourThen gatewaySource givenLines glyphOf halvesOf
    halvesTo handlerAt handlerIn handlerOf handlerSound handlerTests handlersOf handlersSound hasBit hasHandler hasWholeHead headColumn headIn
    headPart headPlaces headsBack headsExit headsHold headsOf headsOfText heldColumn heldThreshold higherOf highestOf highestTo holdsSizes inHandler
    inLine isActive isBlank isChaining isChainingClass isCount isCsr isEligible isEnabled isEvent isIn isKind isMember isNil isOfLine isOneOf
    isOneOfFifteen isOpen isOther isPending isRetired isReturn isSound isSource isSources isTaking isWaiting isWell isWord keptBy keptOf lastLine
    lastLineSize latchAfter latchAt latchSampled latchesAfter latestAfter lengthPut levelOf lineFeed linesIn linesInto linesLength linesRoom
    listingHeads listingOf listingSources listingValues loadEvent lookAt lookEvent lowestBit lowestFrom lowestOf marginAnswer marginOf markOut
    maskFits mayChain mayCommit mayCount mayStore mayTake meihapOf memberOf messageSize mostEvents mostSources movedAt movedOf movedWhere movedWord
    newHandler newSlot nextCount nextIn nextSource noFault noHandlers noKind noLater noRefusal noTimer noWinner noneOpen notEvent notSources
    numberAfter numberIn numbersOf ofCounters offsetRefusal oneLine oneMore oneOpen openEvent openHandler openOf openedSlot orTo outcomeOf overOf
    ownReturn pageRegister pendingAt pendingBit pendingOf pendingSource pendingWord placeAfter placeTests placesOfWord placesTo playedLines playedOf
    polarityAt powerOnOf printBy printOf printRoom printWithin printedInto printedLength priorityOrder putInto putTimer rankColumn rankIn readAnswer
    readHeads readNumbers readValues readVerdict readWriteAnswer readWriteBytes readyAt readyOf recordLength recordNumbers recordOf recordSize
    refusalColumn refusalPlaces refusalRows refusalsIn refusalsLeft refusalsOf refusedAt refusedIn refusedInto refusedLength refusedLine
    refusedMessage refusedWith registerAt resetCounters resetErrors resetTimer resetTimers returnEvent returnOf returnOut reversedOf rootOf rowOfPlace
    rowsFault rowsOfEvents saidIn sampleEvent sampleOf sampledSource sampledTo saysAny scanOf scopeVerdict selectedBit servedAnswers servedWith
    servesIn setCurrent setMask setMaskEvent setMaskOf setsBy settleAt sevenOf shortHead signalBit sizesColumn sizesThen soundAt soundFirst soundOf
    soundStepOf soundTests sourceAt sourceBits sourceCount sourceRegister sourceSound sourceSoundAt sourceTests sourcesIn sourcesOf sourcesOfText
    sourcesSound sourcesTaken sourcesText staysOpen stepFrom stepIn storeEvent storeRefusal takeEvent takeOut takingPlaces textFault textLength
    textNumbers textSize thenAnswer thenLeaves thresholdIn thresholdOf timerAt timerOf timerSound timerTests timersSound toRecord toRecordAnswer
    toRecordBytes toText toTextAnswer toTextBytes tooLong tooMany traceOf treeWinner triggerAt twoOpen unusedAreZero updatedOf uppermostHandler
    uppermostOf valueColumn valueIn valuePart valuePlaces valuesBack valuesExit valuesHold valuesOfText verdictOf verdictWithin waitingAt
    waitingSource walkFrom whyNotEvent whyNotSources whyShortHead whyTooLong whyTooMany whyWords winnerOf winnerTo withBase withBound withClaim
    withClaimed withControl withController withCount withCounter withCounters withCurrent withDepth withEnable withError withErrors withField
    withLatch withLine withMask withOpened withOrder withPolarity withPriord withScalars withService withSource withStack withThreshold withTimer
    withTimers withTrigger withUppermost withoutLead withoutReturn wordAfter wordOfBits wordTo wordsFrom wordsSize writeAnswer writeNumbers
    writeReadAnswer writeReadHeads writeReadValues writeRefusal writeShapeOf writeVerdict writerAnswer writtenBytes writtenTo
"""

PORT = """
    addressOf allFrom answerOf bitOf bytesOf choiceOf claimedOf classOf countOf endOf entryAt entryOf fieldAt fieldOf foundFrom freshOf headOf heldOf
    inSet isEmpty isNone isNumber isRegister joinOf kindOf lastOf lastOr lengthOf lineAt lineOf linesOf loadOf lookOf lowOf mayWrite noRow numberOf
    offsetOf orderOf placeOf putAt rankAt rankOf readOf roomFor rowOf rowsFrom rowsOf saidOf shapeOf sourceOf startOf stepOf storeOf tableOf takeOf
    textOf upTo valuesOf wordOf wordsIn wordsOf writtenOf
"""

# Only in the files of proofs/ of the crate that stands before the name.
LEMMAS = {
    "handlers_laws each_of": "each_of-at",
    "text_reader no_kind": "line_of_no_kind",
    "text_reader one_line": "one_line-more",
    "text_lines one_more": "one_more-fits",
    "claims step_in": "step_in-is",
    "record too_long": "too_long-found",
    "record too_many": "too_many-found",
}

NAME = re.compile(r"(?<![\w'·◌-])[A-Za-z_][\w'-]*")


def snake(name):
    return re.sub(r"(?<=[a-z0-9])([A-Z])", lambda m: "_" + m[1].lower(), name)


def turn(text, names):
    return NAME.sub(lambda m: names.get(m[0], m[0]), text)


def main(top):
    names = {w: snake(w) for w in (OWN + PORT).split()}
    if len(set(names.values())) != len(names):
        raise SystemExit("two names fall together")
    turned = 0
    for folder in ("crates", "docs", "library", "README.md"):
        at = os.path.join(top, folder)
        paths = [at] if os.path.isfile(at) else [os.path.join(d, f) for d, ds, fs in os.walk(at) for f in fs if "/out/" not in d + "/"]
        for path in sorted(paths):
            if not path.endswith((".rt", ".antt", ".edit", ".md", ".h")) or os.path.basename(path).startswith("PORT"):
                continue
            with open(path, encoding="utf-8") as f:
                old = f.read()
            words = os.path.relpath(path, top).split(os.sep)
            lemmas = {}
            if words[0] == "crates" and words[2] == "proofs":
                lemmas = {k.split()[1]: v for k, v in LEMMAS.items() if k.split()[0] == words[1]}
            new = turn(turn(old, lemmas), names)
            if new != old:
                with open(path, "w", encoding="utf-8") as f:
                    f.write(new)
                turned += 1
    print(f"respell: {turned} files")


if __name__ == "__main__":
    main(sys.argv[1] if len(sys.argv) > 1 else ".")
