#!/usr/bin/env python3
"""Respells the names of definitions, record fields and lemmas in specs/ and proofs/, and where clauses and pages cite them, as the
library of Rattle spells its own: words in snake case, and a dash only in a lemma's name, behind the definition that it is about.

Run once, at the top, after the kit's port.py. Functions, types, fields and constants of src/ keep their names. A name that would
fall together with another, as with a field of a struct or a parameter, has a word more."""

import os
import re

NAMES = """
    abba-place=abba_place addedAll=added_all akaDefinition=aka_definition akaType=aka_type allDigits=all_digits
    anonymityKey=anonymity_key askedAgain=asked_again at-end=at_end at-fault=at_fault atMostOnce=at_most_once
    atTag=at_tag attributeAt=attribute_at attributeOf=attribute_of attributePlace=attribute_place
    attributes-lie=attributes_lie attributesFrom=attributes_from attributeStep=attribute_step
    authenticationReject=authentication_reject authenticationRejectBody=authentication_reject_body autsOf=auts_of
    bigSigma0=big_sigma0 bigSigma1=big_sigma1 block-key=block_key-is block-length=block_length blockKey=block_key
    blockWords=block_words body-short=body_short bytesIn=bytes_in byCard=by_card byMac=by_mac bySequence=by_sequence caseAutn=case_autn
    caseRand=case_rand challenge-held=challenge_held challenge-short=challenge_short challengeBody=challenge_body
    challengeFront=challenge_front challengeParts=challenge_parts ckIkPrime=ck_ik_prime ckPrime=ck_prime
    clientError=client_error clientErrorBody=client_error_body concealedIn=concealed_in contentsOf=contents_of
    digitOf=digit_of eapPacket=eap_packet eapType=eap_type eight-low=eight_low eight-mod=eight_mod
    elementAt=element_at elementsOf=elements_of elementsStart=elements_start elementStep=element_step emskOf=emsk_of
    failure-carried=failure_carried fault-lies=fault_lies faults-agree=faults_agree firstFor=first_for
    firstIn=first_in firstRow=first_row fit-framed=fit_framed fits-challenge=fits_challenge
    fits-identity=fits_identity fits-keys=fits_keys fits-outcome=fits_outcome fits-request=fits_request
    fits-separated=fits_separated fitsFramed=fits_framed fixedIn=fixed_in forKeys=for_keys found-has=found_has
    found-header=found_header found-lies=found_lies found-more=found_more framedLength=framed_length
    gatheredFrom=gathered_from go-on-at=go_on_at go-on-decided=go_on_decided
    go-on-leaves-the-block=go_on_leaves_the_block goodAnswer=good_answer granted-at=granted_at
    granted-decided=granted_decided granted-leaves-a-block=granted_leaves_a_block grantedFrom=granted_from
    hashBlocks=hash_blocks hashBlocks-append=hash_blocks-append hashBlocks-end=hash_blocks-end
    hashBlocks-front=hash_blocks-front hashBlocks-step=hash_blocks-step hashBlocks-two=hash_blocks-two
    hashValue=hash_value headerOf=header_of held-nothing=held_nothing holdingOf=holding_of identity-held=identity_held
    identityBody=identity_body identityOf=identity_of identityRequest=identity_request ikPrime=ik_prime
    initialHashValue=initial_hash_value isDigit=is_digit isFor=is_for isGenuine=is_genuine isStarted=is_started
    kamfOf=kamf_of kausfOf=kausf_of kAut=k_aut_of kdfAttribute=kdf_attribute kdfInput=kdf_input kdfList=kdf_list
    kdfOf=kdf_of kdfs-length=kdfs_length keepFirst=keep_first kEncr=k_encr_of keyBlock=key_block keys-ok=keys_ok
    keyXor=key_xor kRe=k_re_of kseafOf=kseaf_of layerOf=layer_of left-challenge=left_challenge left-keys=left_keys
    left-outcome=left_outcome left-request=left_request left-separated=left_separated lengthField=length_field
    longEnough=long_enough lvAt=lv_at lvEAt=lv_e_at macOf=mac_of macWith=mac_with masterKey=master_key
    masterKeyFor=master_key_for messageType=message_type_of more-to-come=more_to_come mskOf=msk_of name-held=name_held
    nameNumber=name_number neededFor=needed_for neededForChallenge=needed_for_challenge networkKind=network_kind
    networkOf=network_of ngksi-ok=ngksi_ok ngksiOf=ngksi_of nidAfter=nid_after noneForeign=none_foreign
    of_layer-4=of_layer_4 offer-placed=offer_placed ofReject=of_reject ofRequest=of_request ofResult=of_result
    ofSubtype=request_of_subtype ok-part=ok_part once-held=once_held onChallenge=on_challenge oneMore=with_one_more
    onIdentity=on_identity onKeys=on_keys onMasterKey=on_master_key onOutcome=on_outcome onRequest=on_request
    packetIn=packet_in plmnName=plmn_name prefersAkaPrime=prefers_aka_prime prf-end=prf_end prf-step=prf_step
    prfBlock=prf_block prfBlocks=prf_blocks prfPrime=prf_prime read-inside=read_inside readMessage=read_message
    readRequest=read_request reason-of_layer-4=reason_of_layer_4 recordedDefinition=recorded_definition
    recordedHolding=recorded_holding reject-sound=reject_sound rejectFor=reject_for rejectOf=reject_of
    reply-framed=reply_framed reply-length=reply_length reply-of-its-type=reply_of_its_type replyMessage=reply_message
    request-carried=request_carried request-lies=request_lies request-number=request_number
    request-sound=request_sound requestOf=request_of responsePacket=response_packet rest-is=rest_is
    result-carried=result_carried result-sound=result_sound resultFor=result_for rotatedLeft=rotated_left
    roundConstants=round_constants saidBy=said_by same-field=same_field scheduleWord=schedule_word
    scheduleWord-take=schedule_word-take scriptedDefinition=scripted_definition scriptedHolding=scripted_holding
    scriptedType=scripted_type search-inside=search_inside second-sum=second_sum second-write=second_write
    sequenceNumber=sequence_number sixteen-held=sixteen_held sixteenOf=sixteen_of smallSigma0=small_sigma0
    smallSigma1=small_sigma1 staleAnswer=stale_answer state-is=state_is subtypeOf=subtype_of
    success-sound=success_sound synchronizationFailure=synchronization_failure
    synchronizationFailureBody=synchronization_failure_body tail-is=tail_is takesCardRows=takes_card_rows
    takesMethodRows=takes_method_rows testAnswers=test_answers testDefinition=test_definition testHolding=test_holding
    tlv-most=tlv_most twoBytes=two_bytes type-of-a-method=type_of_a_method unproven-at=unproven_at
    unproven-decided=unproven_decided unproven-leaves-none=unproven_leaves_none withLength=with_length
    wordBytes-append=word_bytes-append wordBytes-more=word_bytes-more wordsFor=words_for writtenLength=written_length
    zeroCard=zero_card zeroedAt=zeroed_at zeroFilled=zero_filled
"""

# a lemma that would have the name of a definition: file, old name, new name, and the definition's old name, which shows that the
# file has not been turned
LEMMAS = [("crates/keys/proofs/Derived.antt", "two_bytes", "two_bytes-below", "twoBytes")]

NAME = re.compile(r"[A-Za-z_][\w'-]*")
WORD = re.compile(r"[A-Za-z_]\w*")


def main():
    names = dict(pair.split("=") for pair in NAMES.split())
    words = {old: new for old, new in names.items() if "-" not in old}
    for folder, dirs, files in os.walk("."):
        dirs[:] = sorted(d for d in dirs if d not in ("out", ".git", "target", "unfinished"))
        for file in sorted(files):
            path = os.path.relpath(os.path.join(folder, file))
            if file.endswith(".antt"):
                pattern, turned = NAME, dict(names)
            elif file.endswith(".rt"):
                pattern, turned = WORD, dict(words)
            elif file.endswith(".md"):
                pattern, turned = re.compile(r"(?<=`)[A-Za-z_]\w*(?=`)"), dict(words)
            else:
                continue
            with open(path, encoding="utf-8") as f:
                text = f.read()
            turned.update({old: new for where, old, new, first in LEMMAS if where == path and first in text})
            new = pattern.sub(lambda m: turned.get(m[0], m[0]), text)
            if new != text:
                with open(path, "w", encoding="utf-8") as f:
                    f.write(new)


if __name__ == "__main__":
    main()
