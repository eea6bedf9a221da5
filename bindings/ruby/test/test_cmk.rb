# frozen_string_literal: true

require "minitest/autorun"
require "open3"
require "rbconfig"
require "timeout"
require_relative "../lib/cmk"

class TestCmk < Minitest::Test
  OUTPUTS = [
    [:html, "", {}, ""],
    [:html, "a\0b", {}, "<p>a\ufffdb</p>\n"],
    [:html, "a & *b* ~~c~~", { strike: true }, "<p>a &amp; <em>b</em> <del>c</del></p>\n"],
    [:html, "<b>a</b> [b](javascript:c)", { safe: true }, "<p>&lt;b&gt;a&lt;/b&gt; [b](javascript:c)</p>\n"],
    [:html, "<b>a</b> [b](javascript:c)", { web_links: true }, "<p><b>a</b> [b](javascript:c)</p>\n"],
    [:html, "<b>", { no_html: true }, "<p>&lt;b&gt;</p>\n"],
    [:html, "a\n<source>", { older: true }, "<p>a</p>\n<source>\n"],
    [:html, "ä".encode("ISO-8859-1"), {}, "<p>ä</p>\n"],
    [:html, "ä".b, {}, "<p>ä</p>\n"],
    [:tree, "# a", {}, "heading 1\n  text \"a\"\nowner 1 leaf 1\n"],
    [:json, "---", {}, '{"type":"root","data":{"lines":[1,1]},"children":[{"type":"thematicBreak","data":{"lines":[1,1]}}]}'],
    [:rewrite, "a\n===\n", {}, "# a\n"]
  ].freeze

  ERRORS = [
    [:html, "ab\xff", {}, :NOT_UTF8, 2, "cmk: F1 not UTF-8 at byte 2"],
    [:html, "abcdef", { bytes: 3 }, :TOO_LONG, 3, "cmk: F2 input too long at byte 3"],
    [:html, "> > a", { blocks: 1 }, :BLOCKS_TOO_DEEP, 1, "cmk: F3 blocks too deep on line 1"],
    [:tree, "***a***", { inlines: 1 }, :INLINES_TOO_DEEP, 1, "cmk: F4 inlines too deep in leaf 1"],
    [:rewrite, "***a***", {}, :CANNOT_SPELL, Cmk::Reason::EMPHASIS_NESTED, "cmk: F8 cannot be spelled: emphasis in emphasis"],
    [:json, "a", { bytes: 0 }, :OUT_OF_RANGE, 0, "cmk: a number is out of its range"],
    [:html, "a", { blocks: (2**64) + 1 }, :OUT_OF_RANGE, 0, "cmk: a number is out of its range"],
    [:html, "a", { inlines: 1.5 }, :OUT_OF_RANGE, 0, "cmk: a number is out of its range"]
  ].freeze

  def test_outputs
    OUTPUTS.each do |call, text, options, output|
      came = Cmk.public_send(call, text, **options)
      assert_equal [output, Encoding::UTF_8], [came, came.encoding]
    end
    assert_match(/\A\d+\.\d+\.\d+\z/, Cmk.version)
  end

  def test_errors
    ERRORS.each do |call, text, options, name, place, line|
      error = assert_raises(Cmk::Error) { Cmk.public_send(call, text, **options) }
      assert_equal [Cmk::Fault.const_get(name), place, line], [error.number, error.place, error.message]
    end
    assert_equal "cmk: answer 99 at 0", Cmk::Error.new(99, 0).message
    assert_raises(ArgumentError) { Cmk.html("a", saef: true) }
    assert_raises(TypeError) { Cmk.html(nil) }
  end

  def test_trees
    assert_equal %w[/b /d], Cmk.walk(Cmk.parse("[a](/b) *![c](/d)*")).filter_map { |node| node[:url] }
    inlines = { "#{"*" * 1000}a#{"*" * 1000}" => 1503, "#{"![" * 500}a#{"](b)" * 500}" => 1003 }
    inlines.each do |text, nodes|
      assert_equal nodes, Cmk.walk(Cmk.parse("#{"- " * 500}#{text}", blocks: 500, inlines: 500)).count
    end
  end

  def test_another_library
    { "/etc/passwd" => "invalid ELF header", "libm.so.6" => 'unknown symbol "cmk_html"' }.each do |file, why|
      said, = Open3.capture2e({ "CMK_LIBRARY" => file }, RbConfig.ruby, "-I", File.join(__dir__, "../lib"), "-r", "cmk", "-e", "")
      assert_includes said, "#{why}: install libcmk, or let the variable CMK_LIBRARY name libcmk.so.0 (LoadError)"
    end
  end

  def test_threads
    text = "a *b*\n\n" * 20
    made = Array.new(8) { Thread.new { Array.new(200) { Cmk.html(text) }.uniq } }.flat_map(&:value)
    assert_equal ["<p>a <em>b</em></p>\n" * 20], made.uniq
  end

  def test_a_text_that_changes_during_a_call
    text = +"a *b*\n\n" * 500_000
    call = Thread.new { Cmk.html(text) }
    sleep 0.002
    text.upcase!
    assert_equal 1, call.value.lines.uniq.size
  end

  # An output that isn't freed would take 10 MB each time.
  def test_a_call_that_is_interrupted
    text = "a *b*\n\n" * 500_000
    before = resident
    10.times { assert_raises(Timeout::Error) { Timeout.timeout(0.001) { Cmk.html(text) } } }
    assert_operator resident - before, :<, 50_000
  end

  private

  # Returns how many kilobytes of the process are in memory.
  def resident
    File.read("/proc/self/status")[/^VmRSS:\s+(\d+)/, 1].to_i
  end
end
