"""The conditions of docs/PROFILE.md on the words and the realm of each realm call, in their order."""
from condition_tests import aligned, on_owner, space, word
from records import is_page


def ipa_state_set(rec, base, top, ripas):
    return [word("base_align", is_page(base), base=base), word("top_align", is_page(top), top=top), word("size_valid", base < top, base=base),
            word("ripas_valid", ripas <= 1, ripas=ripas), on_owner("rgn_bound", rec, lambda realm: top <= realm.half, space)]


REALM_CONDITIONS = {
    "MEASUREMENT_READ": lambda rec, i: [word("index_bound", i <= 4, i=i)],
    "MEASUREMENT_EXTEND": lambda rec, i, size, *_: [word("index_bound", 1 <= i <= 4, i=i), word("size_bound", 1 <= size <= 0x40, size=size)],
    "IPA_STATE_SET": ipa_state_set,
    "IPA_STATE_GET": lambda rec, ipa: [aligned(ipa), on_owner("ipa_bound", rec, lambda realm: ipa < realm.half, space)],
    "HOST_CALL": lambda rec, imm: [word("own_imm", imm < 0x10000, imm=imm)],
}
