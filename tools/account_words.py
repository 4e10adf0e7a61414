"""What a whole scenario is compared in: the words of its statements, and the lemmas by which facts at each place, computed one by one,
are facts at all places."""

WORDS = '''-- What a whole scenario is compared in.
use Rattle.std.specs.Prelude.{◌≡◌, ℕ, zero, suc, ◌+◌, ◌-◌, ◌<◌, Bool, true, false, not, ◌&&◌, IsTrue, slice_index_or, ⊤}
use Rattle.std.specs.Prelude.{List, [], ◌∷◌, ◌++◌, length, map, take, drop}
use Rattle.std.specs.List.{list_any}
use Rattle.trace_base.specs.declared.policy.FullPolicy.TheVariants.{Ring}
use Rattle.page_geometry.specs.Sizes.{record_size}
use Rattle.trace_model.specs.Images.{Image, Patch}
use Rattle.trace_model.specs.Packets.{emissions_of}
use Rattle.trace_model.specs.Pages.{Page}
use Rattle.trace_model.specs.Sequences.{Sequence, Cursor, sequence_in}
use Rattle.trace_model.specs.Buffers.{Buffer, empty_buffer}
use Rattle.trace_model.specs.History.{Event, state_after, records_after}
use Rattle.trace_model.specs.Delivery.{Delivered, IsFaithful, records_of, sequence_of}
use Rattle.trace_model.specs.Tells.{Tells}
use Rattle.trace_model.specs.Causes.{Fixed, Outcome, fixed_after, is_same_place}
use Rattle.trace_model.specs.Balance.{PacketCounts, IsBalanced, CountsOutcomes, counts_of, packet_outcomes}
use Rattle.delivery_laws.specs.DeliveryLaws.{IsAccountOf}
use Rattle.delivery_laws.specs.Room.{asked}
use Rattle.chunk_plain.specs.Setup.{Setup}
use Rattle.chunk_plain.specs.Views.{Content, BegunChunk, Completed, WriterView, Taken, newcomer}
use Rattle.chunk_plain.specs.World.{World, writer}
use Rattle.chunk_plain.specs.Histories.{history_of}
use Rattle.world_model.specs.FirstBuffers.{BufferSpec, payload_at, first_buffers}
use Rattle.world_model.specs.Accounts.{HasCut, InOrder, all_images}

-- the chunks that a writer completed, of these images and patches, all for one buffer
abbrev pub contents_of : ℕ → List Image → List (List Patch) → List Content
contents_of target [] patches = []
contents_of target (image ∷ images) [] = []
contents_of target (image ∷ images) (own ∷ patches) =
    record { image = image; patches = own; target = target } ∷ contents_of target images patches

-- what became of the chunks of a writer that holds none
abbrev pub begun_of : List Content → List BegunChunk
begun_of contents = map (λ (content : Content). Completed 0 content) contents

-- so many of the contents, taken
abbrev pub taken_first : ℕ → List Content → Taken
taken_first count contents = record { count = count; contents = take count contents }

abbrev pub no_buffer : Buffer
no_buffer = empty_buffer 0 Ring []

-- the buffer with this number
abbrev pub buffer_at : Setup → List BufferSpec → ℕ → Buffer
buffer_at setup buffers number = slice_index_or (first_buffers setup 1 buffers) (number - 1) no_buffer

abbrev pub are_distinct : List Cursor → Bool
are_distinct [] = true
are_distinct (at ∷ others) = not (list_any (λ other. is_same_place other at) others) && are_distinct others

-- what a scenario's writers emitted
abbrev pub emitted_in : World → List (List (List ℕ))
emitted_in world = map (λ (view : WriterView). emissions_of view.calls) world.writers

-- A whole scenario: all sequences of all buffers at once. Of each writer's place `held` has what it holds, as an image. The facts on writers,
-- cuts and order are those of an account of the world, which has two more: that each chunk is owned, and that each writer began as many chunks as it
-- completed and holds.
pub record IsComputed (setup : Setup) (buffers : List BufferSpec) (world : World) (held : ℕ → List Image) (events : List Event)
    (records : List Delivered) : Type 0 where
  pub happened : history_of world.service ≡ events
  pub written : records_after (first_buffers setup 1 buffers) events ≡ records
  pub faithful : IsFaithful (emitted_in world) records
  pub writers : length world.writers ≡ length setup.writers
  pub cuts : (place : ℕ) → place < length world.writers → HasCut (payload_at setup place) place (writer world place) (held place)
  pub order : (place : ℕ) → place < length world.writers
      → InOrder (all_images (writer world place) (held place)) world.service (sequence_of place) 0 false [] world.service.events

-- the account of one writer's sequence in the scenario, with what became of each packet and what the report says
pub record IsReported (setup : Setup) (buffers : List BufferSpec) (world : World) (place number : ℕ) (pages : List Page)
    (events : List Event) (outcomes : List Outcome) (counts : PacketCounts) : Type 0 where
  pub account : IsAccountOf (payload_at setup place) (writer world place).calls pages (buffer_at setup buffers number).sequences
      (sequence_of place) (record_size (payload_at setup place)) events
  pub became : packet_outcomes (fixed_after (sequence_of place) (buffer_at setup buffers number) events)
      (writer world place).calls pages ≡ outcomes
  pub once : IsTrue (are_distinct (map (λ (fixed : Fixed). fixed.at)
      (fixed_after (sequence_of place) (buffer_at setup buffers number) events)))
  pub reported : counts_of (buffer_at setup buffers number).policy (writer world place).calls
      (sequence_in (state_after (buffer_at setup buffers number) events).sequences (sequence_of place)) ≡ counts
  pub balanced : IsBalanced counts
  pub caused : CountsOutcomes (buffer_at setup buffers number).policy outcomes counts

-- what holds at each of so many places, from 0 on
abbrev pub Each : (ℕ → Type 0) → ℕ → Type 0
Each P zero = ⊤
Each P (suc count) = Each P count × P count

-- the records of this writer's sequence tell of its packets
abbrev pub Told : List (List (List ℕ)) → List Delivered → ℕ → Type 0
Told emitted records place = Tells (slice_index_or emitted place []) (sequence_of place) (records_of (sequence_of place) records)

-- the list with these elements in the place of so many from a place on
abbrev pub spliced : {A : Type 0} → ℕ → ℕ → List A → List A → List A
spliced at count new old = take at old ++ new ++ drop (at + count) old
'''

LEMMAS = '''-- From facts at each place to facts at all.
use Rattle.std.proofs.Common.{◌≡◌, ℕ, zero, suc, ◌<◌, List, [], ◌∷◌, length, Some, refl, sym, subst, arith, inl, inr}
use Rattle.std.specs.Prelude.{◌⊎◌, slice_get, slice_index_or}
use Rattle.std.proofs.lemmas.Bool.{cases_eq}
use Rattle.std.proofs.lemmas.Option.{slice_get_within}
use Rattle.trace_model.specs.Delivery.{Delivered, records_of, sequence_of}
use Rattle.trace_model.specs.Tells.{Tells}
use Rattle.computed.specs.Words.{Each, Told}

pub at_each : (P : ℕ → Type 0) (count place : ℕ) → Each P count → place < count → P place
at_each P zero place each below = absurd (omega (arith, below))
at_each P (suc count) place (each, last) below =
    by_place (λ e. subst P (sym e) last) (λ d. at_each P count place each (omega (arith, below, d))) (cases_eq place count)
  where
    by_place : (place ≡ count → P place) → ((place ≡ count → ⊥) → P place) → ((place ≡ count) ⊎ (place ≡ count → ⊥)) → P place
    by_place here before (inl e) = here e
    by_place here before (inr d) = before d

got_or : (xs : List (List (List ℕ))) (i : ℕ) (x : List (List ℕ)) → slice_get xs i ≡ Some x → slice_index_or xs i [] ≡ x
got_or [] i x e = absurd (cc)
got_or (y ∷ xs) zero x e = cc
got_or (y ∷ xs) (suc i) x e = got_or xs i x e

pub told_at : (emitted : List (List (List ℕ))) (records : List Delivered) → Each (Told emitted records) (length emitted)
    → (place : ℕ) (packets : List (List ℕ)) → slice_get emitted place ≡ Some packets
    → Tells packets (sequence_of place) (records_of (sequence_of place) records)
told_at emitted records each place packets e =
    subst (λ (own : List (List ℕ)). Tells own (sequence_of place) (records_of (sequence_of place) records))
    (got_or emitted place packets e)
    (at_each (Told emitted records) (length emitted) place each (slice_get_within emitted place packets e))
'''

HEAD = '''-- Whole scenarios.
use Rattle.std.specs.Prelude.{◌≡◌, ℕ, ◌-◌, ◌^◌, Bool, true, false, List, [], ◌∷◌, ◌++◌, replicate, None, Some, slice_index_or}
use Rattle.trace_base.specs.declared.policy.FullPolicy.TheVariants.{Ring, Discard}
use Rattle.trace_base.specs.declared.policy.WriterPolicy.TheVariants.{Drops, Stalls}
use Rattle.trace_model.specs.Calls.{Call, Begun, Number, Bytes, Nested, Ended, GivenUp, Finished, Flushed}
use Rattle.trace_model.specs.Images.{Image, Patch}
use Rattle.trace_model.specs.Pages.{Page}
use Rattle.trace_model.specs.Cut.{CutsInto, newest_goes_on}
use Rattle.trace_model.specs.Packets.{packets_of, emissions_of}
use Rattle.trace_model.specs.History.{Event, Arrives, ArrivesInPart, Patched, Closed, Read}
use Rattle.trace_model.specs.Delivery.{Delivered, IsFaithful}
use Rattle.trace_model.specs.Causes.{Outcome, Delivered as Shown, Absent}
use Rattle.trace_model.specs.Reads.{Dropped, Lost, Cut}
use Rattle.trace_model.specs.Balance.{PacketCounts, IsBalanced, CountsOutcomes}
use Rattle.delivery_laws.specs.Orders.{InOrder}
use Rattle.delivery_laws.specs.WriterSheets.{sheets_of}
use Rattle.delivery_laws.specs.Room.{asked}
use Rattle.chunk_plain.specs.Setup.{Setup}
use Rattle.chunk_plain.specs.Views as views
use Rattle.chunk_plain.specs.World.{World}
use Rattle.world_model.specs.FirstBuffers.{BufferSpec, payload_at}
use Rattle.world_model.specs.Accounts as accounts
use Rattle.computed.specs.Words.{IsComputed, IsReported, Told, contents_of, begun_of, taken_first, buffer_at, emitted_in, spliced}

abbrev pub no_limit : ℕ
no_limit = 2 ^ 64 - 1

'''
