// Changes definitions one at a time and sees that one of the named programs tells, by the meaning that has the definition, or else a row. What both meanings
// have is changed for both. Usage: node changes.js [WORDS OF ONE ..]
'use strict';
const { spawnSync } = require('child_process');
const path = require('path');
const changes = [
  ['operands from right to left', 'es_operations/Operators', 'with_primitives f heap c place.Begin = left_converted heap c\nwith_primitives f heap c place.Receiver = then_right heap c c.input\nwith_primitives f heap c _ = concludes heap c (f c.kept c.input)',
    'with_primitives f heap c place.Begin = then_right heap c value.Undefined\nwith_primitives f heap c place.Position = asks heap (record c { kept = c.input }) place.End (Primitive c.this_value hint.Number)\nwith_primitives f heap c _ = concludes heap c (f c.input c.kept)', ['order_conversions_of_operands']],
  ['the names of a loop shared by all turns', 'core_meaning/Cells', 'copy links st = has value.Undefined links (copied st)', 'copy links st = has value.Undefined links st', ['scopes_closure_each_turn_of_for']],
  ['an uninitialized read let through', 'core_meaning/Cells', 'check_ready p st (Has (Extra Empty)) = raises ReferenceError st', 'check_ready p st (Has (Extra Empty)) = has value.Undefined p.links st', ['scopes_uninitialized_names']],
  ['a bad result of `return` let through', 'es_operations/Iteration', 'closed thrown heap c = if thrown then gives heap c value.Undefined else gives_object heap c c.input', 'closed thrown heap c = gives heap c value.Undefined', ['for_of_close_answers_no_object']],
  ['a throw of `return` under a throw not dropped', 'es_operations/Steps', 'drops_throw c = nat_eq c.builtin number.iterator_close_thrown_number && is_called c.place', 'drops_throw c = false', []],
  ['a pending return dropped by a finally that yields', 'core_meaning/Step', 'done rows st (Pending completion) = hands completion st', 'done rows st (Pending completion) = hands Done st', ['generators_finally_that_throws_or_waits', 'generators_return_runs_finally']],
  ['one saved context for all generators', 'core_meaning/Generators', 'with_generator n g st = with_generators (slice_set st.store.generators n g) st', 'with_generator n g st = with_generators (slice_set st.store.generators 0 g) st', ['generators_interleaved']],
  ['a running generator resumed', 'core_meaning/Generators', 'resume_by n kind v st Executing = raises TypeError st', 'resume_by n kind v st Executing = completed kind v st', ['generators_running_one_is_not_resumed']],
  ['a base checked behind the right side', 'core_meaning/Properties', '(λ v. if is_nothing v then raises TypeError st else goes (rows.named v units) p.links st)', '(λ v. goes (rows.named v units) p.links st)', ['order_base_is_checked_before_the_right_side']],
  ['a length converted once', 'es_operations/Properties', 'length_once heap c (Ok n) = asks heap (record c { kept = value.Number n }) place.Length (Primitive (arg c 1) hint.Number)',
    'length_once heap c (Ok n) = length_twice heap (record c { kept = value.Number n }) (Ok n)', []],
  ['the left number looked at behind the right operand', 'es_operations/Operators', 'calculate o heap c place.Receiver = right_behind heap c (number_of c.input)', 'calculate o heap c place.Receiver = then_right heap c c.input', []],
  ['`this` bound twice', 'core_meaning/Classes', 'bind_this p st v (Some w) = raises ReferenceError st', 'bind_this p st v (Some w) = has v p.links st', ['classes_super_call_in_arrow_and_later', 'classes_super_call_in_try_and_loops']],
  ['a constructor that returns what it likes', 'core_meaning/Classes', 'derived_given n st v = raises TypeError st', 'derived_given n st v = hands (Gives (User v)) st', []],
  ['a class that is called', 'core_meaning/Classes', 'class_guard links st = if is_undefined st.context.own.target then raises TypeError st else has value.Undefined links st', 'class_guard links st = has value.Undefined links st', ['classes_are_not_called']],
  ['`yield*` that wraps results anew', 'core_meaning/Generators', 'else yields (Work (Delegates iterator links)) false result st', 'else yields (Work (Delegates iterator links)) true result st', ['generators_delegation_passes_results_on']],
  ['`new.target` lost through `super`', 'core_meaning/Classes', 'construct_as core f args st.context.own.target (pushed', 'construct_as core f args f (pushed', ['classes_new_target']],
  ['an object handed to a host', 'core_meaning/Calls', 'asks_host n site st None = raises TypeError st', 'asks_host n site st None = unlawful st', ['hosts_refuse_objects']],
  ['no record for a static member', 'core_meaning/Classes', 'is_method then noted id k', 'is_method then (λ st. st)'.replace('(λ st. st)', 'homed (value.Object id) value.Undefined'), []],
  // the meaning of modules
  ['operands from right to left, of modules', [
    ['source_meaning/Nodes', 'begins (PowerBase exponent) base st', 'begins (PowerBase base) exponent st'],
    ['source_meaning/Frames', 'turns number.power_number base (v ∷ []) st', 'turns number.power_number v (base ∷ []) st']], ['expressions_powers']],
  ['an operator that takes its right side first', [['source_meaning/Frames', 'operate (Operands os) o left v st', 'operate (Operands os) o v left st']], ['order_conversions_of_operands']],
  ['`next` kept from the start of a loop', [
    ['es_operations/Iteration', 'get_iterator heap c _ = gives_object heap c c.input',
      'get_iterator heap c place.Called = if is_object c.input then wants heap (record c { kept = c.input }) place.End (want.Get c.input (Text (codes "next"))) else throws heap c TypeError\nget_iterator heap c _ = gives (added heap (object_in c.kept) (Text (codes "kept next")) c.input) c c.kept'],
    ['es_operations/Iteration', 'iterator_step heap c place.Begin = wants heap c place.Element (want.Get c.this_value (Text (codes "next")))',
      'iterator_step heap c place.Begin = wants heap c place.Element (want.Get c.this_value (Text (codes "kept next")))'],
    ['es_operations/Iteration', 'use Rattle.es_calls.specs.Calls.{arg}', 'use Rattle.es_calls.specs.Calls.{arg, object_in}\nuse Rattle.es_calls.specs.Making.{added}']], ['for_of_next_is_read_at_each_step']],
  ['the names of a loop shared by all turns, of modules', [['source_meaning/Loops', 'with_copies l st = if l.copies then copied st else st', 'with_copies l st = st']], ['scopes_closure_each_turn_of_for']],
  ['a copy before the first test forgotten', [['source_meaning/Loops', 'loop_begun l st = test_loop l (with_copies l st)', 'loop_begun l st = test_loop l st']], []],
  ['the names of for-of not seen by its subject', [['source_meaning/Loops', 'controls (Begin subject) (head_entered l (pushed (ForOfSubject l) st))', 'controls (Begin subject) (pushed (ForOfSubject l) st)']], ['scopes_for_of_head_in_subject']],
  ['an uninitialized read let through, of modules', [['source_meaning/Environments', 'read_held Uninitialized st = raises ReferenceError st', 'read_held Uninitialized st = gives value.Undefined st']], ['scopes_uninitialized_names']],
  ['an uninitialized name written', [['source_meaning/Environments', 'write_held r x v st next Uninitialized = raises ReferenceError st', 'write_held r x v st next Uninitialized = next (stored_at r.at x v st)']], ['scopes_assignment_to_uninitialized_after_right_side']],
  ['a constant written', [['source_meaning/Environments', 'if r.binding.mutable then next (stored_at r.at x v st) else raises TypeError st', 'next (stored_at r.at x v st)']], ['const_assignments']],
  ['a closing forgotten on break', [['source_meaning/Loops', 'for_of_jumped l iterator st (Breaks None) = closes iterator Done st', 'for_of_jumped l iterator st (Breaks None) = hands Done st']], ['for_of_break_continue_return_throw_close']],
  ['a closing forgotten on an outer continue', [['source_meaning/Loops', 'else closes iterator (Continues label) st', 'else hands (Continues label) st']], ['odd_for_of_jumps_out_of_nested_loops_close_in_order']],
  ['a pattern that never closes its iterator', [['source_meaning/Patterns', 'elements_on b iterator [] done st = closes_unless done iterator Done st', 'elements_on b iterator [] done st = hands Done st']], ['patterns_iterator_is_closed_where_it_is_not_done']],
  ['a pattern that closes behind a failing step', [['source_meaning/Patterns', 'take_element false slot default t st = iterator_step (ElementStep slot default t) t.iterator st',
    'take_element false slot default t st = iterator_step (ElementStep slot default t) t.iterator (pushed (ElementsRest false t) st)']], ['patterns_failing_step_does_not_close']],
  ['a target behind the step', [['source_meaning/Patterns', 'target_first Assigns (layer.Target x) = Some x', 'target_first Initializes (layer.Target x) = Some x']], ['order_pattern_target_before_the_step']],
  ['a pending return dropped by a finally that yields, of modules', [['source_meaning/Frames', 'over st (Pending completion) = hands completion st', 'over st (Pending completion) = hands Done st']], ['generators_return_runs_finally']],
  ['one saved context for all generators, of modules', [['source_meaning/Generators', 'with_generator n g st = with_generators (slice_set st.generators n g) st', 'with_generator n g st = with_generators (slice_set st.generators 0 g) st']], ['generators_interleaved']],
  ['a running generator resumed, of modules', [['source_meaning/Generators', 'resume_by n kind v st Executing = raises TypeError st', 'resume_by n kind v st Executing = completed kind v st']], ['generators_running_one_is_not_resumed']],
  ['a generator that runs at its call', [['source_meaning/Generators', 'from_start n saved kind v st = completed kind v (with_generator n Completed st)', 'from_start n saved kind v st = continues n saved kind v st']], ['generators_return_at_start_and_end']],
  ['`yield*` that wraps results anew, of modules', [['source_meaning/Generators', 'else yields (Delegated iterator) false result st', 'else yields (Delegated iterator) true result st']], ['generators_delegation_passes_results_on']],
  ['a template that converts at its end', [['source_meaning/Expressions', 'template_valued text after ps st v = operates (TemplateText text after ps) number.to_text_number v [] st',
    'template_valued text after ps st v = template_on (text ++ after ++ after) ps st']], ['templates_convert_each_value_at_once']],
  ['a namespace that is exported again not found', [['source_meaning/Environments', 'read_found x st (Some r) = read_held (held_by st.records r.binding.held) st', 'read_found x st (Some r) = read_held (held_there st.records r.binding.held) st']], []],
  ['modules evaluated in load order', [['source_meaning/Modules', 'due = joined (due_of g) (evaluation_order (map request_homes g.modules) 0);', 'due = joined (λ m. record { home = 0; items = m.tree.items } ∷ []) g.modules;']], ['modules_order_of_evaluation']],
  ['functions of a module made when it is evaluated', [['source_meaning/Modules', '(fold with_item_function (within_module n st) (joined item_functions m.tree.items))', '(within_module n st)']], ['modules_cycle_with_functions']],
  ['a default that sees the names of the body', [['source_meaning/Functions', '++ (if have_expression ps then [] else body_bindings (parameters_names ps) ss)', '++ body_bindings (parameters_names ps) ss']], ['parameters_defaults_do_not_see_the_body']],
  ['a body without a record of its own', [['source_meaning/Functions', 'body_instantiated code st = with_functions (last_ones (functions_in (statements_of code))) (with_body_record code st)',
    'body_instantiated code st = with_functions (last_ones (functions_in (statements_of code))) st']], ['parameters_closures_share_one_scope', 'odd_parameters_scopes_in_scopes']],
  ['a function of a block made where it stands', [['source_meaning/Statements', 'with_functions (functions_in ss) (with_bindings', '(λ s. s) (with_bindings']], ['functions_in_blocks']],
  ['a class that is called, of modules', [['source_meaning/Calls', 'if is_class closure.code && is_none c.target then raises TypeError st', 'if false then raises TypeError st']], ['classes_are_not_called']],
  ['`new.target` lost through `super`, of modules', [['source_meaning/Calls', 'construct (parent_of st.heap st.context.own.callee) args st.context.own.target (pushed SuperMade st)',
    'construct (parent_of st.heap st.context.own.callee) args (parent_of st.heap st.context.own.callee) (pushed SuperMade st)']], ['classes_new_target']],
  ['`this` bound twice, of modules', [['source_meaning/Environments', 'bind_this v st (Some w) = raises ReferenceError st', 'bind_this v st (Some w) = gives v st']], ['classes_super_call_in_try_and_loops', 'classes_super_call_in_arrow_and_later']],
  ['a constructor that returns what it likes, of modules', [['source_meaning/Calls', 'derived_given n st v = raises TypeError st', 'derived_given n st v = gives v st']], []],
  ['the inner name of a class not kept', [['source_meaning/Classes', 'class_named (Some x) v st = initialized x v st', 'class_named (Some x) v st = st']], ['classes_inner_and_outer_names']],
  ['no record for a static member, of modules', [['source_meaning/Classes', 'noted_by is_static id k st = if is_static then noted id k st else st', 'noted_by is_static id k st = st']], ['classes_statics_are_inherited']],
  ['a base checked behind the right side, of modules', [['source_meaning/Lists', 'member_link units wanted links st v =\n    if is_nothing v then raises TypeError st\n    else refers_to', 'member_link units wanted links st v =\n    refers_to']], ['order_base_is_checked_before_the_right_side']],
  ['a method read behind its arguments', [['source_meaning/Lists', 'reads (LinkMethod base p wanted links) (OfProperty base k) st', 'passes (Calling base base) p wanted links st']], ['order_callee_is_read_before_arguments_and_tested_after']],
  ['a jump caught by the nearest label', [['source_meaning/Statements', 'broken_at l st m = if is_label l m then hands Done st else hands (Breaks m) st', 'broken_at l st m = hands Done st']], ['statements_labels']],
  ['arguments in arrows', [['source_meaning/Functions', 'has_arguments code = not (is_arrow code) && mentions_arguments', 'has_arguments code = mentions_arguments']], ['arguments_in_arrows_and_closures']],
  ['a new template object at each evaluation', [['source_meaning/Lists', 'template_in (t ∷ ts) raw = if pointwise bytes_eq t.raw raw then Some t.object else template_in ts raw', 'template_in (t ∷ ts) raw = None']], ['templates_tagged_object_of_one_place']],
];
// the definitions of the operations serve both meanings
const isOfModules = (edits) => edits.some(([module]) => module.startsWith('source_meaning/'));
const levelsOf = (edits) => isOfModules(edits) ? ['s'] : edits.some(([module]) => module.startsWith('core_meaning/')) ? ['0'] : ['s', '0'];
let unseen = 0, tried = 0;
const asked = process.argv.slice(2);
for (const [what, ...more] of changes) {
  if (asked.length > 0 && !asked.some((words) => what.includes(words))) continue;
  const edits = typeof more[0] === 'string' ? [more.slice(0, 3)] : more[0], programs = more.at(-1);
  const env = { ...process.env, CHANGED: JSON.stringify(edits), MOST_STEPS: '100000' };
  const runs = programs.length > 0 ? levelsOf(edits).map((level) => ['run.js', '--levels', level, ...programs]) : [['rows.js']];
  for (const [file, ...rest] of runs) {
    tried++;
    const told = spawnSync(process.execPath, ['--no-warnings', '--expose-internals', path.join(__dirname, file), ...rest], { env, encoding: 'utf8' });
    const fault = told.stderr.trim().split('\n').find((line) => line.startsWith('Error'));
    if (told.status === 0 || fault) { unseen++; console.log(`not seen: ${what}, by ${rest.join(' ')}${fault ? ` (${fault})` : ''}`); }
  }
}
console.log(`changes: ${changes.length}, ${tried} runs, ${unseen} not seen`);
process.exitCode = unseen === 0 ? 0 : 1;
