"""The rows of each point: what is counted, the finder of places.py, and its pattern or names."""

KIND = r'0x(?:01|1[0-9A-C]|2[0-2]|3[0-9A-F]|4[0-5])\b'

CHOOSERS = '''asking::count_of asking::told device::decide_made device::decide_checked device::effect_made
device::execute quotes::execute desk::decide desk::effect commands::decide commands::effect setup::enter_setup
scan::enter checks::is_plain checks::seen_right checks::field_fault checks::command_fault checks::made_fault
learning::learn_parts turns::turn device::decide device::effect checks::check_field checks::is_right'''

POINTS = {
    1: [
        ('functions that answer a refusal as u8, 0 for none', 'refusals', None),
        ('tests of such a number against 0', 'asked', None),
        ('enums with a variant Refused', 'code', r'^ +Refused\('),
        ('places that make or match one', 'code', r'::Refused\('),
        ('fields refusal and number of structs', 'code', r'^ +(pub (refusal|number): u8|(pub )?number: u32),'),
        ('literals that fill them', 'code', r'^ +(refusal|number): (?!u(8|32),)'),
        ('functions that give one more than a place, or 0', 'named',
            'tables::half_of tables::entry_of tables::newest_of tables::earlier_of boards::entry_of path::entry_of'),
        ('writers of one', 'code', r'\((terms|n|place) \+ 1\) as u16|half \+ 1|note_half\(tables, terms'),
        ('tests of one against 0, and the place read from one', 'code',
            r'(entry_of\(.*\)|\b(entry|half|same|other|e)) [!=]= 0|\b(entry|half|other|e)( as usize)? - 1\b'),
        ('fields that hold one', 'code', r'^ +pub (same|other|free): usize,'),
        ('0 for no kind, no section, no fields; no half', 'named',
            'index::other_half records::section_of records::fields_in checks::seen_right path::parent_by '
            'path::parent_of'),
        ('no key as a number', 'code', r'NO_KEY'),
        ('zeros for no entry or no term', 'code', r'^ +(certificate|subject): (0|Subject::Tpm\(0\)),'),
        ('constants for roles and marks', 'code',
            r'^pub const (DEVICE|TPM_MAKER|OEM_DESK|OWNER_DESK|NUMBER_USED|CREDENTIAL_\w+): u8'),
        ('their uses', 'code',
            r'^(?!pub const).*\b(DEVICE|TPM_MAKER|OEM_DESK|OWNER_DESK|NUMBER_USED|CREDENTIAL_(OPEN|CLOSED))\b'),
        ('kinds as numbers: compared, matched or passed', 'code', r'^(?! +0x[0-9A-F]+,$).*\b' + KIND),
        ('kinds, roles, marks as numbers: parameters and fields', 'code',
            r'\b(kind|role|mark|outer|inner): u(8|16)\b|pub desk: u8|TermOf\(u8\)'),
        ('a tag in place of a Subject', 'code', r'\btag\b|tag_at\(|file\[at \+ 3\] [!=]= 0'),
        ('sections as numbers', 'code',
            r'\b(own|section) (==|<) \w+ \{|section: ([04]|section|u8),|section: u8[,)]|file\.len\(\), 4,'),
        ('packed field codes', 'code', r'^const FIELDS|^ +FIELDS$|field_table\(|fields_in\(|low_field\(|fields / 256'),
        ('a number for an empty pair or register', 'code', r'\bEMPTY_FIELD\b|= 255;'),
        ('a count that says whether there was a run', 'code', r'places: (0|rules::TERM_LIMIT),|s\.left == 0'),
        ('flags as bits of a number', 'code', r'const (RESTRICTED|SIGN|DECRYPT|FIXED_TPM): u8|\bflag: u8|% 2 == 1'),
    ],
    2: [
        ('state: readers of a column', 'groups',
            ['state::knows state::in_table', 'state::mark_of state::desk_of', 'state::request_of state::place_of']),
        ('state: writers of a column', 'groups', ['state::note_known state::note_table',
            'state::note_mark state::note_desk', 'state::note_request state::note_place']),
        ('tables: readers of a region', 'groups', [
            'tables::signer_of tables::half_of tables::entry_of tables::depth_of '
            'tables::kind_of tables::newest_of tables::serial_of tables::earlier_of tables::ek_of']),
        ('tables: writers of a region', 'groups', ['tables::note_signer tables::note_half tables::note_entry '
            'tables::note_depth tables::note_kind tables::note_ek']),
        ('loaded: readers that differ in a field\'s number', 'body', r'^\s+field_of\(file, tables, t, \d\)\s*\}'),
        ('readers of a term\'s fields as a struct', 'groups', ['requests::pair_of requests::credential_of '
            'requests::ldevid_request_of', 'loaded::idevid_request_of requests::idevid_request_of '
            'loaded::certificate_of requests::certificate_of']),
        ('two bytes of a word', 'groups', ['state::word_in records::word_at', 'state::note_word registers::show']),
        ('filling with one value', 'groups', ['state::clear registers::clear ledger::clear']),
        ('a bit of a number', 'groups', ['records::has loaded::key_has state::knows state::in_table']),
        ('who signs', 'groups', ['setup::signs_for_role requests::signs_for_role requests::signs_for_some',
            'requests::signs_as requests::signs_among']),
        ('a test and its opposite', 'groups', ['requests::is_tpm requests::is_device']),
        ('checks of a field', 'groups', ['checks::byte_fault checks::declared_fault',
            'checks::kind_fault checks::inner_fault', 'checks::field_fault checks::command_fault']),
        ('checks of a record', 'groups', [
            'checks::made_right checks::sent_right checks::issue_right checks::pairs_right',
            'checks::signature_right checks::certificate_right']),
        ('the scan of records and of commands', 'groups',
            ['scan::scan scan::scan_commands', 'scan::scan_records scan::scan_commands']),
        ('the length of a body, twice', 'groups', ['records::body_length records::length_of']),
        ('counts with branches that differ in one field', 'named', 'scan::count turns::step'),
        ('equal refusals of requests', 'code', r'return (Request|Attested) \{'),
        ('lines of the listing', 'groups', ['lister::line_of_two lister::line_of_three', 'lister::refusal_line '
            'lister::entry_line lister::total_line lister::fault_line', 'lister::refusals_into lister::entries_into']),
        ('no entry', 'groups', ['ledger::no_entry lines::no_entry gained::none calls::entry']),
        ('answers as numbers', 'groups', ['birdweekly::birdweekly_load birdweekly::in_numbers birdweekly::run_numbers '
            'birdweekly::stock_numbers birdweekly::path_numbers']),
        ('structs of numbers for C', 'code', r'^(pub )?struct \w*Numbers \{'),
        ('device: what several kinds ask', 'groups', ['device::decide_idevid_request device::decide_ldevid_request '
            'device::decide_pair', 'device::decide_check_hash device::decide_check_signature '
            'device::decide_check_certificate device::decide_check_attributes', 'device::both_known device::checked',
            'device::unticketed device::sent_by_desks', 'device::is_desk device::may_check']),
        ('a command by its record', 'groups', ['device::decide_made device::decide_checked device::decide_sent '
            'device::decide_issued quotes::decide_extended quotes::decide_quoted', 'device::effect_made '
            'device::effect_sent device::effect_issued quotes::effect_extended quotes::effect_quoted']),
        ('decide, then effect', 'groups', ['device::execute quotes::execute']),
        ('issuing with an IAK and on request', 'groups', ['issuance::decide_issue_iak issuance::decide_issue',
            'issuance::effect_issue_iak issuance::effect_issue', 'issuance::iak_allowed issuance::entry_allowed']),
        ('walks over pairs', 'groups', ['together::stands_in together::any_pair together::others_end together::effect',
            'together::pairs_fault together::decide']),
        ('parts of a term', 'groups', ['learning::one learning::two', 'learning::learn_term learning::learn_parts']),
        ('one number or another, by a test', 'groups', ['turns::asked_for turns::wanted turns::left_after '
            'path::room_for path::place_at path::parent_by']),
        ('the lengths that a call asks', 'groups', ['loader::load beginning::begin']),
        ('the calls for Run and Path', 'groups', ['calls::ask calls::path']),
        ('attributes of a key', 'groups', ['rules::iak rules::ek rules::devid rules::desk_key']),
        ('places in a file', 'code', r'^pub struct (Cursor|Reader<)'),
        ('the lines before a listing', 'groups', ['cases::list_whole cases::list_part']),
        ('numbers that only make a crate', 'groups', ['theorems::families situations::starred '
            'request_situations::of_families request_situations::of_subjects request_situations::of_together '
            'request_situations::of_registers request_situations::of_shown request_situations::of_stock']),
    ],
    3: [
        ('loops that count up by one', 'loops', r"^ *while (\w+) < [\s\S]*\n +\1 \+= 1;"),
        ('loops that count down by one', 'loops', r'^ *while (?:0 < )?(\w+)(?: != 0| > 1)? \{[\s\S]*\n +\1 -= 1;'),
        ('loops over a count in a struct', 'loops', r'^ *while \w\.left != 0'),
        ('walks by a place that steps', 'loops', r"^ *('\w+: )?loop \{|^ *while at < "),
        ('takings away that are counted', 'loops', r'^ *while left >= power'),
        ('walks down a bucket', 'loops', r'^ *while e != 0'),
        ('all loops', 'loops', r'while|loop'),
    ],
    4: [
        ('equality', 'named', 'rules::same rules::same_subject requests::is_tpm requests::is_device'),
        ('a value of a type as a number, and back', 'named', 'rules::kind_of records::low_field records::section_of '
            'loaded::subject_of rules::family_of'),
        ('fields as a struct, a struct as a number', 'named',
            'index::words_of records::four records::key index::key_of '
            'engine::finish'),
        ('answers as numbers for C', 'named',
            'birdweekly::birdweekly_load birdweekly::in_numbers birdweekly::run_numbers '
            'birdweekly::stock_numbers birdweekly::path_numbers'),
        ('a word as two bytes, and back', 'named', 'records::word_at state::word_in state::note_word registers::show'),
        ('printing', 'named', 'decimal::byte_into decimal::power_of_ten decimal::digit_count decimal::take_away '
            'decimal::decimal_into lister::number_into lister::line_of_two lister::line_of_three lister::refusal_line '
            'lister::entry_line lister::total_line lister::fault_line lister::outcome_line lister::ledger_line '
            'cases::print_number'),
        ('a value of nothing', 'named', 'ledger::no_entry lines::no_entry gained::none calls::entry'),
        ('derives of Clone and Copy alone', 'code', r'#\[derive\(Clone, Copy\)\]'),
    ],
    5: [
        ('file, state and tables together', 'takes', 'file state tables'),
        ('file and tables, no state', 'takes', 'file tables -state'),
        ('and parties too', 'takes', 'file tables parties'),
        ('tables, parties and terms', 'takes', 'tables parties terms'),
        ('state, ledger, outcomes and registers', 'takes', 'state ledger outcomes registers'),
        ('a list of bytes and where it ends (out, at)', 'takes', 'out at'),
        ('Holds', 'says', r'\bHolds \w'),
        ('Finds', 'says', r'\bFinds \w'),
        ('parties ≡ length', 'says', r'parties ≡ length'),
        ('terms ≡ length', 'says', r'terms ≡ length'),
        ('row_width * t + row_width ≤ length state', 'says', r'row_width \* \w+ \+ row_width ≤ length'),
        ('TermsNoted', 'says', r'\bTermsNoted\b'),
        ('TermNoted', 'says', r'\bTermNoted\b'),
        ('PartyHere', 'says', r'\bPartyHere\b'),
        ('length registers ≡ register_bytes', 'says', r'length registers\.\w+ ≡ register_bytes'),
        ('length tables ≡ table_words', 'says', r'length tables\.\w+ ≡ table_words'),
        ('a fact in the requires of three or more functions', 'facts', 3),
    ],
    6: [
        ('a buffer with a count in a struct', 'code', r'^pub struct (Gained|Stage) \{'),
        ('a buffer and where it ends (out, at)', 'takes', 'out at'),
        ('slices with a count beside', 'named',
            'ledger::clear ledger::append_gained gained::entry_at lister::refusals_into '
            'lister::entries_into lines::entries_of path::step'),
        ('places of n things', 'named', 'together::stands_in together::any_pair together::alike_before '
            'together::others_end together::judge together::judge_next together::pair_ends together::issue_next'),
        ('regions of one array of words', 'code',
            r'^pub const (SIGNERS|HALVES|ENTRIES|DEPTHS|KINDS|FIELDS|NEWEST|SERIALS|EARLIER|EKS): '),
        ('columns of one array of bytes', 'code', r'^pub const (KNOWN|TABLE|MARK|DESK|REQUEST|PLACE): '),
        ('functions that take the words', 'takes', 'tables'),
        ('arrays beside: signing keys, links', 'code', r'\b(signers|links): &(mut )?\[u16'),
        ('lists of indices', 'named', 'index::search index::enter_term boards::entry_of tables::link tables::newest_of '
            'tables::earlier_of issuance::link'),
        ('words with a name each in place of an array', 'code',
            r'^(pub )?struct (Words|Numbers) \{|first: u16, second: u16|words\.first'),
        ('buffers of a fixed size in a body', 'code', r'let mut \w+ = \[[^\]]*; '),
    ],
    7: [
        ('functions that choose a step by a kind, a section, a field or a question', 'named', CHOOSERS),
        ('tests by which they choose', 'within', (CHOOSERS, r'match (kind|field|question|file\[at\]|parts_of\(.*\)) \{|'
            r'if (kind|section) (==|<|<=|>=|>|!=) \w+ \{|if let Field::|if commands::is_desk')),
    ],
    8: [
        ('answers', 'answers', r' :\s+goal\.'),
        ('answers of one search or omega', 'answers',
            r' :\s+goal\.(.*\n)(unfolding.*\n)*\S+ \w = (search|omega|grind) .*\n?$'),
        ('private lemmas in Answers files', 'answers', r'^(?!.* :\s+goal\.)(?!.*\bpub )'),
        ('of them with a dash in the name', 'answers', r'^(?!.* :\s+goal\.)(?!.*\bpub ) *[^\s:]*-[^\s:]* '),
    ],
}
