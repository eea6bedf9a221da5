/* The extension cmk: what cmk.stub.php declares. */

#ifdef HAVE_CONFIG_H
#include "config.h"
#endif

#include <php.h>
#include <zend_exceptions.h>
#include <ext/json/php_json.h>
#include <ext/spl/spl_exceptions.h>
#include <ext/standard/info.h>
#include <cmk.h>

#include "php_cmk_arguments.h"

/* The levels of JSON that a list item, a quote or inline, and the rest of a tree may take. */
#define CMK_LEVELS_OF_ITEM 4
#define CMK_LEVELS_OF_INLINE 3
#define CMK_OTHER_LEVELS 8

typedef uint32_t (*cmk_call)(const char *, size_t, const cmk_options *, cmk_output *);

/* Makes what a function returns of an output. */
typedef void (*cmk_maker)(zval *value, const cmk_output *output, const cmk_options *options);

static zend_class_entry *cmk_exception;

/* Sets the members of an exception. */
static void cmk_describe(zend_object *exception, zend_long number, zend_long place)
{
	char line[CMK_LINE_ROOM];
	cmk_filled filled;
	bool is_known = number >= 0 && number <= UINT32_MAX
		&& cmk_fault_text((uint32_t) number, (size_t) place, line, sizeof line, &filled) == CMK_DONE;
	zend_string *message = is_known
		? zend_string_init(line, filled.length - 1, 0) /* without its line feed */
		: zend_strpprintf(0, "cmk: answer " ZEND_LONG_FMT " at " ZEND_LONG_FMT, number, place);

	zend_update_property_str(cmk_exception, exception, ZEND_STRL("message"), message);
	zend_update_property_long(cmk_exception, exception, ZEND_STRL("code"), number);
	zend_update_property_long(cmk_exception, exception, ZEND_STRL("place"), place);
	zend_string_release(message);
}

static void cmk_throw(uint32_t number, size_t place)
{
	zval exception;
	object_init_ex(&exception, cmk_exception);
	cmk_describe(Z_OBJ(exception), number, (zend_long) place);
	zend_throw_exception_object(&exception);
}

ZEND_METHOD(Cmk_CmkException, __construct)
{
	zend_long number, place;
	ZEND_PARSE_PARAMETERS_START(2, 2)
		Z_PARAM_LONG(number)
		Z_PARAM_LONG(place)
	ZEND_PARSE_PARAMETERS_END();
	cmk_describe(Z_OBJ_P(ZEND_THIS), number, place);
}

/* Reads a value of JSON that is no object and no array. Returns what follows it, or NULL. */
static const char *cmk_read_scalar(zval *value, const char *at)
{
	const char *end = at + 1;
	bool is_escaped = false;
	switch (*at) {
		case 't': ZVAL_TRUE(value); return at + 4;
		case 'f': ZVAL_FALSE(value); return at + 5;
		case 'n': ZVAL_NULL(value); return at + 4;
		case '"': break;
		default:
			ZVAL_LONG(value, ZEND_STRTOL(at, (char **) &end, 10));
			return end > at ? end : NULL;
	}
	for (; *end != '"'; end++) {
		if (*end == '\0') {
			return NULL;
		}
		if (*end == '\\') {
			is_escaped = true;
			end++;
		}
	}
	if (!is_escaped) {
		ZVAL_STRINGL_FAST(value, at + 1, end - at - 1);
		return end + 1;
	}
	/* PHP's reader needs a NUL after the string. */
	zend_string *token = zend_string_init(at, end + 1 - at, 0);
	zend_result read = php_json_decode_ex(value, ZSTR_VAL(token), ZSTR_LEN(token), 0, 1);
	zend_string_release(token);
	return read == SUCCESS ? end + 1 : NULL;
}

/* A tree that is being made. */
typedef struct {
	zval *root;
	zend_array **around; /* the arrays that the next value is in */
	size_t depth, most;
	const char *key; /* the name of the next value in an object, or NULL */
	size_t key_length;
} cmk_reader;

static void cmk_add(cmk_reader *reader, zval *value)
{
	if (reader->depth == 0) {
		ZVAL_COPY_VALUE(reader->root, value);
	} else if (reader->key) {
		zend_hash_str_update(reader->around[reader->depth - 1], reader->key, reader->key_length, value);
	} else {
		zend_hash_next_index_insert(reader->around[reader->depth - 1], value);
	}
	reader->key = NULL;
}

/* Reads the next piece of JSON: a sign, a name with its colon, or a value. Returns what follows it, or NULL. */
static const char *cmk_read_piece(cmk_reader *reader, const char *at)
{
	zval value;
	const char *end;
	switch (*at) {
		case ',':
			return at + 1;
		case '}':
		case ']':
			return reader->depth-- > 0 ? at + 1 : NULL;
		case '{':
		case '[':
			if (reader->depth == reader->most) {
				return NULL;
			}
			array_init(&value);
			cmk_add(reader, &value);
			reader->around[reader->depth++] = Z_ARRVAL(value);
			return at + 1;
	}
	end = cmk_read_scalar(&value, at);
	if (end && *end == ':') {
		reader->key = at + 1;
		reader->key_length = end - 1 - reader->key;
		zval_ptr_dtor(&value);
		return end + 1;
	}
	if (end) {
		cmk_add(reader, &value);
	}
	return end;
}

/* Makes arrays of the JSON that the library wrote. PHP's own reader fails where values nest deeper than some 2,400 levels. */
static void cmk_make_tree(zval *value, const cmk_output *output, const cmk_options *options)
{
	cmk_reader reader = {.root = value};
	const char *at = output->bytes;
	reader.most = CMK_LEVELS_OF_ITEM * options->blocks + CMK_LEVELS_OF_INLINE * options->inlines + CMK_OTHER_LEVELS;
	reader.around = safe_emalloc(reader.most, sizeof *reader.around, 0);
	ZVAL_NULL(value);
	while (at && *at != '\0') {
		at = cmk_read_piece(&reader, at);
	}
	efree(reader.around);
	if (!at || Z_TYPE_P(value) != IS_ARRAY) {
		zend_throw_error(NULL, "libcmk wrote no tree");
	}
}

static void cmk_make_string(zval *value, const cmk_output *output, const cmk_options *options)
{
	ZVAL_STRINGL(value, output->bytes, output->length);
}

static void cmk_answer(INTERNAL_FUNCTION_PARAMETERS, cmk_call call, cmk_maker make)
{
	zend_string *text;
	zend_long bytes = 1 << 28, blocks = 100, inlines = 100;
	bool older = false, strike = false, no_html = false, web_links = false, safe = false, is_broken_off = false;
	ZEND_PARSE_PARAMETERS_START(1, 9)
		Z_PARAM_STR(text)
		Z_PARAM_OPTIONAL
		Z_PARAM_LONG(bytes)
		Z_PARAM_LONG(blocks)
		Z_PARAM_LONG(inlines)
		Z_PARAM_BOOL(older)
		Z_PARAM_BOOL(strike)
		Z_PARAM_BOOL(no_html)
		Z_PARAM_BOOL(web_links)
		Z_PARAM_BOOL(safe)
	ZEND_PARSE_PARAMETERS_END();

	if (bytes < 1 || blocks < 1 || inlines < 1) { /* for the library, 0 is the default */
		cmk_throw(CMK_OUT_OF_RANGE, 0);
		RETURN_THROWS();
	}
	cmk_options options = {(size_t) bytes, (size_t) blocks, (size_t) inlines, older, strike, no_html || safe, web_links || safe};
	cmk_output output = CMK_OUTPUT;
	uint32_t number = call(ZSTR_VAL(text), ZSTR_LEN(text), &options, &output);
	if (number != CMK_DONE) {
		cmk_throw(number, output.place);
		RETURN_THROWS();
	}
	/* At memory_limit, PHP may leave by a long jump, and frees only what is its own. */
	zend_try {
		make(return_value, &output, &options);
	} zend_catch {
		is_broken_off = true;
	} zend_end_try();
	cmk_free(&output);
	if (is_broken_off) {
		zend_bailout();
	}
}

ZEND_FUNCTION(cmk_html)
{
	cmk_answer(INTERNAL_FUNCTION_PARAM_PASSTHRU, cmk_html, cmk_make_string);
}

ZEND_FUNCTION(cmk_tree)
{
	cmk_answer(INTERNAL_FUNCTION_PARAM_PASSTHRU, cmk_tree, cmk_make_string);
}

ZEND_FUNCTION(cmk_json)
{
	cmk_answer(INTERNAL_FUNCTION_PARAM_PASSTHRU, cmk_json, cmk_make_string);
}

ZEND_FUNCTION(cmk_rewrite)
{
	cmk_answer(INTERNAL_FUNCTION_PARAM_PASSTHRU, cmk_rewrite, cmk_make_string);
}

ZEND_FUNCTION(cmk_parse)
{
	cmk_answer(INTERNAL_FUNCTION_PARAM_PASSTHRU, cmk_json, cmk_make_tree);
}

/* Visits a node and each node inside it, until an exception is thrown. */
static void cmk_visit(zval *node, zend_fcall_info *visit, zend_fcall_info_cache *found)
{
	zval result, *children, *child;
	ZVAL_UNDEF(&result);
	visit->retval = &result;
	visit->params = node;
	visit->param_count = 1;
	zend_call_function(visit, found);
	zval_ptr_dtor(&result);

	children = Z_TYPE_P(node) == IS_ARRAY ? zend_hash_str_find(Z_ARRVAL_P(node), ZEND_STRL("children")) : NULL;
	if (!children || Z_TYPE_P(children) != IS_ARRAY) {
		return;
	}
	ZEND_HASH_FOREACH_VAL(Z_ARRVAL_P(children), child) {
		if (EG(exception)) {
			return;
		}
		cmk_visit(child, visit, found);
	} ZEND_HASH_FOREACH_END();
}

ZEND_FUNCTION(cmk_walk)
{
	zval *tree;
	zend_fcall_info visit;
	zend_fcall_info_cache found;
	ZEND_PARSE_PARAMETERS_START(2, 2)
		Z_PARAM_ARRAY(tree)
		Z_PARAM_FUNC(visit, found)
	ZEND_PARSE_PARAMETERS_END();
	cmk_visit(tree, &visit, &found);
}

ZEND_FUNCTION(cmk_version)
{
	uint32_t number = cmk_version();
	ZEND_PARSE_PARAMETERS_NONE();
	RETURN_STR(zend_strpprintf(0, "%u.%u.%u", number >> 16, number >> 8 & 255, number & 255));
}

static void cmk_declare_constants(zend_class_entry *class)
{
	static const struct { const char *name; zend_long number; } constants[] = {
		{"NOT_UTF8", CMK_NOT_UTF8},
		{"TOO_LONG", CMK_TOO_LONG},
		{"BLOCKS_TOO_DEEP", CMK_BLOCKS_TOO_DEEP},
		{"INLINES_TOO_DEEP", CMK_INLINES_TOO_DEEP},
		{"NO_MEMORY", CMK_NO_MEMORY},
		{"CANNOT_SPELL", CMK_CANNOT_SPELL},
		{"OUT_OF_RANGE", CMK_OUT_OF_RANGE},
		{"NO_ROOM", CMK_NO_ROOM},
		{"REASON_DEFINITION", CMK_REASON_DEFINITION},
		{"REASON_NUL", CMK_REASON_NUL},
		{"REASON_SHAPE", CMK_REASON_SHAPE},
		{"REASON_TEXT", CMK_REASON_TEXT},
		{"REASON_EMPHASIS_NESTED", CMK_REASON_EMPHASIS_NESTED},
		{"REASON_EMPHASIS_TOUCHING", CMK_REASON_EMPHASIS_TOUCHING},
		{"REASON_EMPHASIS_EDGE", CMK_REASON_EMPHASIS_EDGE},
		{"REASON_CODE_SPAN", CMK_REASON_CODE_SPAN},
		{"REASON_RAW_HTML", CMK_REASON_RAW_HTML},
		{"REASON_LINK_IN_LINK", CMK_REASON_LINK_IN_LINK},
		{"REASON_LINE_BREAK", CMK_REASON_LINE_BREAK},
		{"REASON_CODE_TEXT", CMK_REASON_CODE_TEXT},
		{"REASON_HTML_BLOCK", CMK_REASON_HTML_BLOCK},
		{"REASON_ADJACENT_LISTS", CMK_REASON_ADJACENT_LISTS},
		{"REASON_ITEM_BEGINS_WITH_LIST", CMK_REASON_ITEM_BEGINS_WITH_LIST},
		{"REASON_LOOSENESS", CMK_REASON_LOOSENESS},
		{"REASON_STRIKE_OFF", CMK_REASON_STRIKE_OFF},
		{"REASON_ADDRESS_OFF", CMK_REASON_ADDRESS_OFF},
		{"REASON_INFO_OFF", CMK_REASON_INFO_OFF},
	};
	for (size_t at = 0; at < sizeof constants / sizeof *constants; at++) {
		zend_declare_class_constant_long(class, constants[at].name, strlen(constants[at].name), constants[at].number);
	}
}

static PHP_MINIT_FUNCTION(cmk)
{
	zend_class_entry entry;
	zval absent;
	zend_string *place = zend_string_init(ZEND_STRL("place"), true);
	INIT_NS_CLASS_ENTRY(entry, "Cmk", "CmkException", cmk_exception_methods);
	cmk_exception = zend_register_internal_class_ex(&entry, spl_ce_RuntimeException);
	ZVAL_UNDEF(&absent);
	zend_declare_typed_property(cmk_exception, place, &absent, ZEND_ACC_PUBLIC | ZEND_ACC_READONLY, NULL,
		(zend_type) ZEND_TYPE_INIT_MASK(MAY_BE_LONG));
	zend_string_release(place);
	cmk_declare_constants(cmk_exception);
	return SUCCESS;
}

static PHP_MINFO_FUNCTION(cmk)
{
	uint32_t number = cmk_version();
	char version[sizeof "255.255.255"];
	snprintf(version, sizeof version, "%u.%u.%u", number >> 16 & 255, number >> 8 & 255, number & 255);
	php_info_print_table_start();
	php_info_print_table_row(2, "cmk support", "enabled");
	php_info_print_table_row(2, "libcmk version", version);
	php_info_print_table_end();
}

static const zend_module_dep cmk_dependencies[] = {
	ZEND_MOD_REQUIRED("json")
	ZEND_MOD_REQUIRED("spl")
	ZEND_MOD_END
};

zend_module_entry cmk_module_entry = {
	STANDARD_MODULE_HEADER_EX, NULL, cmk_dependencies, "cmk", cmk_functions, PHP_MINIT(cmk), NULL, NULL, NULL, PHP_MINFO(cmk), CMK_VERSION,
	STANDARD_MODULE_PROPERTIES
};

#ifdef COMPILE_DL_CMK
ZEND_GET_MODULE(cmk)
#endif
