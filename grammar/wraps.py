"""How a text of a rule is wrapped into a whole text, `·` standing for it; and texts without their refused words."""
IN_BODY = 'define void @w() { %s unreachable }'


def in_body(text):
    return IN_BODY % text


WRAPS = {'file': '·', 'item': '·'}


def of(text, *rules):
    for rule in rules:
        WRAPS[rule] = text


def inside(text, *rules):
    of(in_body(text), *rules)


# Module Structure, Linkage Types, Global Variables, Aliases
of('target · = "e"', 'target')
of('!0 = · !{}', 'distinct')
of('%t = type ·', 'type_body')
of('@g = · global i32 0', 'body_linkage', 'data_linkage', 'dso', 'unnamed', 'space')
of('@g = · global i32', 'outer_linkage')
of('define · void @w() { ret void }', 'define_linkage')
of('declare · void @w()', 'declare_linkage', 'attachments')
of('@z = ·', 'symbol', 'inner_symbol')
of('@z = external ·', 'outer_symbol')
of('@g = · i32 0', 'storage')
of('@g = global i32 0 ·', 'variable_tail', 'lost_groups')
of('@g = global i32 0, ·', 'align_or_node')
of('@z = alias ·', 'alias')

# Functions
of('declare ·', 'head')
of('declare void @w·', 'parameters')
of('declare void @w(·)', 'params', 'param')
of('declare void @w(i32 ·)', 'more_params')
of('declare void @w(i32, ·)', 'param_or_dots')
of('define void @w(i32 ·) { ret void }', 'name')
of('define void @w() { · }', 'body')
of('define void @w() { ret void · }', 'body_parts')
inside('·', 'body_part', 'line', 'inst', 'simple')
of('declare void @w(ptr ·)', 'lost_attrs', 'lost_attr')
of('declare void @w(ptr "k" ·)', 'text_value')
of('declare void @w() ·', 'function_attrs', 'function_attr')
of('declare void @w() align ·', 'align_value')
inside('call void @f() ·', 'call_attrs')
of('attributes #9 = { · }', 'group_attrs', 'group_attr', 'attr', 'enum_attr')
of('attributes #9 = { alignstack · }', 'stack_value')
of('attributes #9 = { alignstack(·) }', 'stack_number')
of('attributes #9 = { uwtable · }', 'unwind_value')
of('attributes #9 = { uwtable(·) }', 'unwind_number')
of('attributes #9 = { ·(int 4) }', 'number_attr', 'either_attr')
of('attributes #9 = { memory(· }', 'number_or_inside')
of('attributes #9 = { ·() }', 'range_attr')

# Type System
of('@g = external global ·', 'type', 'solid', 'flat')
of('@g = external global <·', 'angle_type')
of('@g = external global { · }', 'types')
of('@g = external global { i8 · }', 'more_types')
inside('call · @f()', 'called_type')
inside('call void · @f()', 'signature')
of('@z = alias void (·), ptr @f', 'argument_types')
of('@z = alias void (i8 ·), ptr @f', 'more_argument_types')
of('@z = alias void (i8, ·), ptr @f', 'type_or_dots')

# Constants
of('@g = global ·', 'tconst')
of('@g = global i32 ·', 'const')
of('@g = global i32 <·', 'const_angle')
of('@g = global i32 <{ ·', 'const_brace')
of('@g = global i32 <{} ·', 'const_empty')
of('@g = global i32 <{ i8 ·', 'const_braced')
of('@g = global i64 ·(i64 1 to i64)', 'const_cast')
of('@g = global i32 · (i32 1, i32 2)', 'const_sum')
of('@g = global i32 [·]', 'tconsts')
of('@g = global i32 [i8 1 ·]', 'more_tconsts')
of('@g = global ptr getelementptr · (i8, ptr @a, i64 1)', 'in_range')

# Instruction Reference
inside('call void @f(i32 ·)', 'value')
inside('call void @f(·)', 'typed', 'args', 'arg')
inside('%z = add ·', 'pair')
inside('ret ·', 'ret')
inside('br ·', 'br')
inside('switch i32 %x, label %d [ · ]', 'cases')
inside('indirectbr ptr %x, [ · ]', 'labels')
inside('indirectbr ptr %x, [ label %a · ]', 'more_labels')
inside('%z = · i32 %x, %y', 'sum', 'quotient', 'bits')
inside('%z = add · i32 %x, %y', 'wraps')
inside('%z = add nuw · i32 %x, %y', 'nsw')
inside('%z = trunc · i32 %x to i8', 'lost_wraps')
inside('%z = trunc nuw · i32 %x to i8', 'lost_nsw')
inside('%z = trunc nsw · i32 %x to i8', 'lost_nuw')
inside('%z = udiv · i32 %x, %y', 'lost_exact')
inside('%z = or · i32 %x, %y', 'lost_disjoint')
inside('%z = icmp · eq i32 %x, %y', 'lost_samesign')
inside('%z = icmp · i32 %x, %y', 'predicate')
inside('%z = · i32 %x to i32', 'cast')
inside('%z = zext · i8 %x to i32', 'nneg')

# Memory Access and Addressing Operations
inside('%z = alloca i32 ·', 'alloca_tail')
inside('%z = alloca i32, ·', 'alloca_part')
inside('%z = alloca i32, i32 1 ·', 'alloca_rest')
inside('%z = alloca i32, i32 1, ·', 'alloca_rest_part')
inside('%z = alloca i32, align 4 ·', 'alloca_end')
inside('%z = alloca i32, align 4, ·', 'alloca_end_part')
inside('%z = load ·', 'load')
inside('%z = load atomic ·', 'atomic_load')
inside('store ·', 'store')
inside('store atomic ·', 'atomic_store')
inside('%z = load · i32, ptr %p', 'volatile')
inside('%z = atomicrmw · ptr %p, i32 1 seq_cst', 'rmw_kind')
inside('%z = atomicrmw add · seq_cst', 'address_and_value')
inside('%z = cmpxchg · ptr %p, i32 0, i32 1 seq_cst seq_cst', 'lost_weak')
inside('%z = cmpxchg ·', 'exchange')
inside('%z = cmpxchg ptr %p, i32 0, i32 1 ·', 'exchange_order')
inside('store atomic i32 0, ptr %p ·, align 4', 'order', 'ordering')
inside('fence · seq_cst', 'scope')
inside('%z = getelementptr · i8, ptr %p', 'gep_flags', 'gep_flag')
inside('%z = getelementptr i8, ptr %p ·', 'more_indices')
inside('%z = getelementptr i8, ptr %p, ·', 'index_or_node')
inside('%z = extractvalue { i8 } %x, 0 ·', 'more_places')
inside('%z = extractvalue { i8 } %x, 0, ·', 'place_or_node')
inside('%z = phi i32 ·', 'entry')
inside('%z = phi i32 [ 0, %a ] ·', 'more_entries')
inside('%z = phi i32 [ 0, %a ], ·', 'entry_or_node')
inside('%z = load i32, ptr %p ·', 'align_attached')
inside('%z = load i32, ptr %p, ·', 'align_or_attached')
inside('%z = atomicrmw add ptr %p, i32 1 seq_cst ·', 'lost_align_attached')
inside('%z = atomicrmw add ptr %p, i32 1 seq_cst, ·', 'lost_align_or_attached')

# call Instruction, Inline Assembler Expressions
inside('· call void @f()', 'tail')
inside('call ·', 'call')
inside('call void ·()', 'callee')
inside('call void asm ·()', 'asm', 'asm_text')
inside('call void @f·', 'arguments')
inside('call void @f(i32 1 ·)', 'more_args')

# Metadata
inside('fence seq_cst ·', 'attached')
of('· = !{}', 'mdname')
inside('fence seq_cst, !x ·', 'mdref')
of('!n = !{·}', 'mdrefs')
of('!n = !{!0 ·}', 'more_mdrefs')
of('!0 = ·', 'node')
of('!0 = ·()', 'debug_node')
of('!0 = !{·}', 'mdops', 'mdop')
of('!0 = !{!0 ·}', 'more_mdops')
of('!0 = !DIFile(·)', 'fields', 'field')
of('!0 = !DIFile(filename: "a" ·)', 'more_fields')
of('!0 = !DIFile(filename: ·)', 'field_value')
of('!0 = !DISubprogram(flags: DIFlagPublic ·)', 'more_words')

# Other words that stand in the place of refused ones, or nothing, so that what stands behind these is read too.
STAND_IN = {
    'fadd': 'urem', 'fsub': 'urem', 'fmul': 'urem', 'fdiv': 'urem', 'frem': 'urem', 'fneg': 'freeze', 'fcmp': 'icmp',
    'fpext': 'sext', 'fptrunc': 'sext', 'fptosi': 'sext', 'fptoui': 'sext', 'sitofp': 'sext', 'uitofp': 'zext',
}
PREDICATES = set('oeq ogt oge olt ole one ord ueq une uno ugt uge ult ule true false'.split())
LEFT_OUT = set('''signext zeroext inreg nest hidden protected externally_initialized fastcc coldcc
    nnan ninf nsz arcp contract afn reassoc fast'''.split())


def without_refused(g, words, classes):
    """The classes of tokens, refused words left out or with others in their place, where that is one word's matter."""
    found, is_float = [], False
    for word, c in zip(words, classes):
        if word in STAND_IN:
            is_float = word == 'fcmp'
            found.append(g.class_number[STAND_IN[word]])
        elif is_float and word in PREDICATES:
            is_float = False
            found.append(g.class_number['eq'])
        elif c == g.class_number['FLOAT']:
            found.append(g.class_number['INT'])
        elif word not in LEFT_OUT:
            found.append(c)
    return found
