<?php

// Answers the cases of .ci/bindings.py by bindings/php. PHP has no threads of its own.

declare(strict_types=1);

/** Returns the HTML on which many calls agree. */
function repeated(string $text, mixed ...$options): string
{
    $made = array_unique(array_map(fn () => Cmk\html($text, ...$options), range(1, 800)));
    return count($made) === 1 ? $made[0] : 'they differ';
}

function answer(string $call, string $text, array $options): array
{
    $flags = JSON_UNESCAPED_SLASHES | JSON_UNESCAPED_UNICODE | JSON_UNESCAPED_LINE_TERMINATORS;
    try {
        return ['output' => match ($call) {
            'parse' => json_encode(Cmk\parse($text, ...$options), $flags, 4096),
            'threads' => repeated($text, ...$options),
            default => "Cmk\\$call"($text, ...$options),
        }];
    } catch (Cmk\CmkException $error) {
        return ['number' => $error->getCode(), 'place' => $error->place, 'line' => $error->getMessage()];
    }
}

while (($line = fgets(STDIN)) !== false) {
    ['call' => $call, 'text' => $text, 'options' => $options] = json_decode($line, true);
    echo json_encode(answer($call, base64_decode($text), $options), JSON_THROW_ON_ERROR), "\n";
}
