#!/usr/bin/env python3
"""Respells the repository's own definitions and lemmas: words in snake case, facts in camel case. Run once, right after port.py, at the top of the repository.

Whole names are turned, in the clauses of src/, in specs/, proofs/ and must-fail/. Names of functions, strings, inputs and outputs stay.
"""

import glob
import re

# Old and new name.
NAMES = dict(line.split() for line in """
    actionFrom action_from
    actionMade action_made
    actionNumbers action_numbers
    addedAt added_at
    afterDigits after_digits
    afterDigits-back after_digits-back
    afterWord after_word
    afterWord-back after_word-back
    allHits all_hits
    allIn all_in
    allMarked all_marked
    allMarked-append all_marked-append
    allProper all_proper
    allVariables all_variables
    arityOf arity_of
    askForm ask_form
    askRest ask_rest
    askWords ask_words
    askedForm asked_form
    atomicLine atomic_line
    atomicRest atomic_rest
    behindAt behind_at
    blankRecord blank_record
    bodyFault body_fault
    bodyIn body_in
    bornForm born_form
    carriedAt carried_at
    carriedBy carried_by
    carriedFor carried_for
    carriedIn carried_in
    carriedOn carried_on
    carriersOf carriers_of
    carriesMany carries_many
    castFrom cast_from
    clauseAt clause_at
    clauseBody clause_body
    clauseForms clause_forms
    clauseFrom clause_from
    clauseLine clause_line
    clauseNumbers clause_numbers
    clauseOf clause_of
    clausePlace clause_place
    clearedTo cleared_to
    countSteps count_steps
    countSteps-append count_steps-append
    countSteps-places count_steps-places
    countsOf counts_of
    declarationCode declaration_code
    declaredIn declared_in
    declaredOf declared_of
    deskAfter desk_after
    deskPlayed desk_played
    diagonalOf diagonal_of
    earlyRow early_row
    effectAt effect_at
    elem-getD elem-get_or
    elem-upFrom elem-up_from
    entryForms entry_forms
    explanationCode explanation_code
    exploredOf explored_of
    factsBy FactsBy
    finalNumber final_number
    firstCarried first_carried
    firstLength first_length
    firstVariable first_variable
    formOf form_of
    gapAt gap_at
    getD-listOf get_or-list_of
    getD-map-in get_or-map-in
    getD-mapped get_or-mapped
    handinCode handin_code
    has-setOf has-set_of
    headAt head_at
    headFault head_fault
    headFrom head_from
    inClass in_class
    inClass-snoc in_class-snoc
    inFront in_front
    inFronts in_fronts
    inFronts-ended in_fronts-ended
    inFronts-more in_fronts-more
    inFronts-open in_fronts-open
    inFronts-unended in_fronts-unended
    inOrder in_order
    isFaulty is_faulty
    isLevel is_level
    isName is_name
    isNegated is_negated
    isNew is_new
    isNext is_next
    isNumeral is_numeral
    isSought is_sought
    isState is_state
    isText is_text
    kindsOf kinds_of
    lastDigits last_digits
    lastNumber last_number
    length-listOf length-list_of
    length-upFrom length-up_from
    levelsBytes levels_bytes
    lineBody line_body
    lineIn line_in
    lineNames line_names
    lineOf line_of
    lineWords line_words
    linesTo lines_to
    linksAt links_at
    listFault list_fault
    listOf-same list_of-same
    listOf-set list_of-set
    listingOf listing_of
    literalAt literal_at
    literalFault literal_fault
    literalOf literal_of
    madeOn made_on
    manyClauses many_clauses
    manyRelations many_relations
    manyStates many_states
    markCode mark_code
    markingForm marking_form
    marksOf marks_of
    matrixBytes matrix_bytes
    meetRest meet_rest
    meetingOf meeting_of
    member-listOf member-list_of
    mirrorOf mirror_of
    nameFault name_fault
    namesIn names_in
    namesStrange names_strange
    negatedFault negated_fault
    newClause new_clause
    newForm new_form
    newLine new_line
    newRest new_rest
    newStage new_stage
    nextForm next_form
    nextLine next_line
    nextRest next_rest
    nextTail next_tail
    numberOf number_of
    objectOf object_of
    onSlots on_slots
    onlyA only_a
    operandOf operand_of
    orStay or_stay
    outcomeOf outcome_of
    pairLink pair_link
    partIn part_in
    passingForm passing_form
    pickFact pick_fact
    place-listOf place-list_of
    placeAnswer place_answer
    placeCode place_code
    placeFront place_front
    placeLine place_line
    placeOf place_of
    placeOutcome place_outcome
    placeReply place_reply
    plainFault plain_fault
    printArity print_arity
    printAtom print_atom
    printBracket print_bracket
    printLiteral print_literal
    printRest print_rest
    printWord print_word
    programOf program_of
    properAtom proper_atom
    properBody proper_body
    properList proper_list
    properLiteral proper_literal
    properStage proper_stage
    questionOf question_of
    raisingForm raising_form
    readLines read_lines
    readyBefore ready_before
    readyBy ready_by
    reasonCode reason_code
    refusalCode refusal_code
    refusedLine refused_line
    relCode rel_code
    relForm rel_form
    relNumber rel_number
    relRest rel_rest
    relationAt relation_at
    relationOf relation_of
    replyCode reply_code
    rowForms row_forms
    ruleForm rule_form
    ruleLine rule_line
    ruleRest rule_rest
    runLines run_lines
    runOutcome run_outcome
    safeQ safe_q
    saidBy said_by
    saysNothing says_nothing
    scopeFault scope_fault
    seatedAt seated_at
    secondWord second_word
    seenSlot seen_slot
    sessionIn session_in
    sessionOf session_of
    setOf set_of
    shownFrom shown_from
    signFault sign_fault
    someA some_a
    someA-reached some_a-reached
    someA-safe some_a-safe
    someB some_b
    spacedList spaced_list
    spanCode span_code
    stageAt stage_at
    stageBody stage_body
    stageFrom stage_from
    stageNumbers stage_numbers
    stageOf stage_of
    stagePlace stage_place
    stagesFault stages_fault
    stateBits state_bits
    stateCode state_code
    stateForm state_form
    stateIn state_in
    stateLines state_lines
    stateNumber state_number
    stateRest state_rest
    statesLine states_line
    statesRest states_rest
    stepRest step_rest
    stepsFrom steps_from
    supportsOf supports_of
    tableBytes table_bytes
    tableForms table_forms
    tooMany too_many
    tooShort too_short
    unitBytes unit_bytes
    upFrom-below up_from-below
    upFrom-distinct up_from-distinct
    upFrom-elem up_from-elem
    usesOf uses_of
    valueAfter value_after
    variableAt variable_at
    variablesOf variables_of
    verdictLine verdict_line
    viewIn view_in
    walkerOf walker_of
    withBit with_bit
    withClause with_clause
    withList with_list
    withStage with_stage
    withoutBit without_bit
""".strip().splitlines())

# Lemmas that would now have the name of the function that they speak of, with the files that name them.
LEMMAS = {
    "all_in": ["crates/model/proofs/Office.antt"],
    "stage_at": ["crates/model/proofs/*.antt", "crates/acceptance/proofs/*.antt"],
    "stage_body": ["crates/model/proofs/*.antt", "crates/witness_meetings/proofs/*.antt", "crates/game_stage/proofs/*.antt", "crates/replay_meetings/proofs/*.antt", "crates/search_levels/proofs/*.antt"],
}

# The relations of an Asbestos desk and the level after a message, whose names are those of variables and of what a function returns.
DESK = ["crates/asbestos/specs/Desk.antt", "crates/asbestos/proofs/Same.antt", "crates/asbestos/proofs/Codes.antt", "crates/asbestos_forms/proofs/*.antt", "crates/asbestos_forms/specs/*.antt"]
RELATIONS = {"S": "send_relation", "R": "receive_relation", "M": "mark_relation"}
LEVEL = ["crates/asbestos*/specs/*.antt", "crates/asbestos*/proofs/**/*.antt", "crates/asbestos*/must-fail/*.edit"]

WORD = re.compile(r"[A-Za-z_][\w'\u2032\u2080-\u2089-]*")


def files(patterns):
    return sorted({f for p in patterns for f in glob.glob(p, recursive=True)})


def turn(patterns, change):
    for f in files(patterns):
        with open(f, encoding="utf-8") as it:
            old = it.read()
        new = change(old)
        if new != old:
            with open(f, "w", encoding="utf-8") as it:
                it.write(new)


def by(table):
    return lambda text: WORD.sub(lambda m: table.get(m.group(), m.group()), text)


def relations(text):
    if not re.search(r"Desk\.\{S, R, M|abbrev pub S : ", text):
        return text
    head = r"(?<![\w.'-])([SRM])(?![\w'-])"
    return "\n".join(line if line.startswith("--") else re.sub(head, lambda m: RELATIONS[m.group(1)], line) for line in text.split("\n"))


def level(text):
    if not re.search(r"Messages\.\{[^}]*\bresult\b|unfoldable pub result|result-right|\(result \(", text):
        return text
    return re.sub(r"(?<![\w.'-])result(?![\w'])", "resulting_level", text)


def resulting(text):
    return text.replace("Messages.{levels, result}", "Messages.{levels, resulting_level}").replace("ensures* { λ r. ⌜ r ≡ result receiver sender ⌝ }", "ensures { result ≡ resulting_level receiver sender }")


for name, patterns in LEMMAS.items():
    turn(patterns, by({name: name + "_lem"}))
turn(DESK, relations)
turn(LEVEL, level)
turn(["crates/asbestos/src/lib.rt"], resulting)
turn(["crates/*/src/**/*.rt", "crates/*/specs/**/*.antt", "crates/*/proofs/**/*.antt", "crates/*/must-fail/*.edit"], by(NAMES))
