/* Every call of labrador.h, a row each: its name after `labrador_`, its share of the calls, how its operands are drawn, the call, what is
   checked of the answer, and the numbers that the header gives it beside 0. */

CALL(zq_add, 20, draw_word_operands, of_word(labrador_zq_add(operands[0], operands[1])), judge_words, 6)
CALL(zq_sub, 20, draw_word_operands, of_word(labrador_zq_sub(operands[0], operands[1])), judge_words, 6)
CALL(zq_mul, 20, draw_word_operands, of_word(labrador_zq_mul(operands[0], operands[1])), judge_words, 6)
CALL(zq_neg, 20, draw_word_operand, of_word(labrador_zq_neg(operands[0])), judge_words, 6)
CALL(zq_centre, 20, draw_word_operand, of_centre(labrador_zq_centre(operands[0])), judge_centre, 6)
CALL(zq_digits, 20, draw_word_for_digits, of_digits(labrador_zq_digits(operands[0], operands[1], operands[2])), judge_digits, 4, 6)
CALL(recompose, 20, draw_digits, of_word(labrador_recompose(operands[0], WORDS(DIGITS))), judge_recomposed, 6, 31)
CALL(parts_needed, 20, draw_base, of_word(labrador_parts_needed(operands[0])), judge_parts, 31)
CALL(projection_entry, 20, draw_word_operand, of_word(labrador_projection_entry(operands[0])), judge_words, 6)
CALL(rq_add, 20, draw_elements, of_element(labrador_rq_add(element(0), element(64))), judge_words, 6)
CALL(rq_sub, 20, draw_elements, of_element(labrador_rq_sub(element(0), element(64))), judge_words, 6)
CALL(rq_mul, 20, draw_elements, of_element(labrador_rq_mul(element(0), element(64))), judge_words, 6)
CALL(rq_mul_fast, 20, draw_elements, of_element(labrador_rq_mul_fast(element(0), element(64))), judge_words, 6)
CALL(rq_scale, 20, draw_element_and_word, of_element(labrador_rq_scale(element(0), operands[64])), judge_words, 6)
CALL(rq_conj, 20, draw_element, of_element(labrador_rq_conj(element(0))), judge_words, 6)
CALL(rq_norm, 20, draw_element, of_norm(labrador_rq_norm(element(0))), judge_norm, 6)
CALL(rq_digits, 20, draw_element_and_rows, of_status(labrador_rq_digits(operands[0], operands[1], element(2), WORDS(OUTPUT))), judge_rows, 2, 4, 6)
CALL(rq_left, 20, draw_element_for_digits, of_element(labrador_rq_left(operands[0], operands[1], element(2))), judge_digits, 4, 6)
CALL(challenge, 20, draw_challenge_words, of_element(labrador_challenge(challenge_words())), judge_challenge, 8)

CALL(scratch_need, 40, draw_job, of_need(labrador_scratch_need(WORDS(JOB))), judge_scratch_need, 3, 4, 5, 6)
CALL(output_need, 40, draw_job, of_need(labrador_output_need(WORDS(JOB))), judge_output_need, 3, 4, 5, 6)
CALL(load_needs, 20, draw_load_parameters, of_load_need(labrador_load_needs(load_parameters)), judge_load_needs, 4, 5)
CALL(load, 20, draw_load_buffers,
     of_answer(labrador_load(load_parameters, load_seed, WORDS(MADE_JOB), WORDS(MADE_WITNESS), WORDS(MADE_RANDOMNESS))), judge_load, 2, 4, 5)

#define PROVER(name) of_answer(name(WORDS(JOB), WORDS(RANDOMNESS), WORDS(WITNESS), WORDS(SCRATCH), WORDS(OUTPUT)))
CALL(prove, 60, draw_prove, PROVER(labrador_prove), judge_made, 1, 2, 3, 4, 5, 6, 7, 8, 11, 12, 13, 14, 15, 16)
CALL(round_1, 40, draw_round_1, PROVER(labrador_round_1), judge_made, 1, 2, 3, 4, 5, 6, 7, 11, 12, 13, 14, 15)
CALL(round_2, 40, draw_round_2, PROVER(labrador_round_2), judge_made, 1, 2, 3, 4, 5, 6, 7, 8, 11, 12, 13, 14, 15)
CALL(round_3, 40, draw_round_3, PROVER(labrador_round_3), judge_made, 1, 2, 3, 4, 5, 6, 7, 8, 11, 12, 13, 14, 15)
CALL(round_4, 40, draw_round_4, PROVER(labrador_round_4), judge_made, 1, 2, 3, 4, 5, 6, 7, 8, 11, 12, 13, 14, 15, 16)
CALL(round_5, 40, draw_round_5, PROVER(labrador_round_5), judge_made, 1, 2, 3, 4, 5, 6, 7, 8, 11, 12, 13, 14, 15, 16)
CALL(shed_projection, 40, draw_shed_projection,
     of_answer(labrador_shed_projection(WORDS(JOB), run_first, run_end, WORDS(PROJECTION), WORDS(VECTORS), WORDS(SCRATCH), WORDS(OUTPUT))),
     judge_shed_projection, 1, 2, 3, 4, 5, 6, 7, 8, 11, 12, 34)
CALL(shed_rows, 40, draw_shed_rows, of_answer(labrador_shed_rows(WORDS(JOB), run_first, run_end, WORDS(VECTORS), WORDS(SCRATCH), WORDS(OUTPUT))),
     judge_shed_rows, 1, 2, 3, 4, 5, 6, 11, 12, 13, 34)
CALL(add_projections, 20, draw_two_p, of_answer(labrador_add_projections(WORDS(FIRST_P), WORDS(SECOND_P), WORDS(OUTPUT))), judge_sum, 2, 9, 10)
CALL(verify, 120, draw_verify, of_verdict(labrador_verify(WORDS(JOB), WORDS(RANDOMNESS), WORDS(TRANSCRIPT), WORDS(SCRATCH))), judge_verdict,
     1, 3, 4, 5, 6, 7, 8, 9, 10, 14, 15, 16, 21, 22, 23, 24, 25, 26, 27, 28, 29)
CALL(verify_many, 30, draw_many,
     of_verdicts(labrador_verify_many(WORDS(JOB), many_count, WORDS(RANDOMNESS), WORDS(TRANSCRIPT), WORDS(SCRATCH))), judge_many, 1, 3, 4, 5, 6, 35)
CALL(mistyped, 60, draw_mistyped,
     of_mistyped(labrador_mistyped(WORDS(JOB), WORDS(RANDOMNESS), WORDS(TRANSCRIPT), WORDS(SCRATCH), WORDS(OUTPUT))), judge_mistyped, 1, 2, 3, 4,
     5, 6, 7, 8, 9, 10, 14, 15, 16, 32, 33)
CALL(ranges, 40, draw_ranges, of_ranges(labrador_ranges(WORDS(JOB), NUMBERS(LOWS), NUMBERS(HIGHS))), judge_ranges, 3, 4, 5, 6, 11, 36, 37)
#undef PROVER
