"""The names of the files of proofs that pass on what others define, as `passed_on` writes them: words, then the lemmas of levels, lowest first."""
WORDS = ['BaseWords', 'Words']
LEVELS = ['LowerLaws', 'MiddleLaws', 'UpperLaws']
ALL = ['Laws']
FILES = {*WORDS, *LEVELS, *ALL}
