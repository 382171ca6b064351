/* FreeType's autofitter on the library: turns FreeType's points, segments and edges into the library's words and back. Included at the end of autofit.c, in every build; see client.h. */
#include "client.h"

#include <time.h>

#include "khsaemudol.h"

#define KHS_WIDTHS     16                    /* AF_LATIN_MAX_WIDTHS and AF_CJK_MAX_WIDTHS are as many */
#define KHS_POINTS     4096
#define KHS_LEAST_GAP  32                    /* half a pixel, for the guard */

  FT_EXPORT_DEF( int )                  af_khs_rule = KHS_KEEP;                  /* the width rule */
  FT_EXPORT_DEF( int )                  af_khs_watch;                            /* whether tables and jobs are kept */
  FT_EXPORT_DEF( int )                  af_khs_timed;                            /* whether the library's calls are timed */
  FT_EXPORT_DEF( double )               af_khs_time;                             /* what they took, in nanoseconds, with one reading of the clock each */
  FT_EXPORT_DEF( long )                 af_khs_answers[AF_KHS_STEPS][256];       /* how often each step's call gave each answer */
  FT_EXPORT_DEF( long )                 af_khs_refused;                          /* how many of these were refusals */
  FT_EXPORT_DEF( long )                 af_khs_left;                             /* axes that are hinted from top to bottom, which is retired, and were left to FreeType */
  FT_EXPORT_DEF( struct af_khs_words )  af_khs_tables[2][AF_KHS_STEPS];
  FT_EXPORT_DEF( struct af_khs_words )  af_khs_jobs[2][AF_KHS_STEPS];

  /**** what is kept ****/

  static struct af_khs_words*  khs_kept;   /* where words are noted, or NULL */

  static void
  khs_note( FT_Pos  word )
  {
    if ( khs_kept && khs_kept->count < AF_KHS_ROOM )
      khs_kept->words[khs_kept->count++] = (int32_t)word;
  }

#define KHS_NOTE_LIST( list, length )                                   \
          do {                                                          \
            FT_Int  nn;                                                 \
                                                                        \
                                                                        \
            khs_note( length );                                         \
            for ( nn = 0; khs_kept && nn < (FT_Int)( length ); nn++ )   \
              khs_note( (list)[nn] );                                   \
          } while ( 0 )

  static void
  khs_note_records( const void*  records,
                    FT_Int       count,
                    FT_Int       words )
  {
    FT_Int  nn;


    khs_note( count );
    for ( nn = 0; khs_kept && nn < count * words; nn++ )
      khs_note( ( (const int32_t*)records )[nn] );
  }

#define KHS_NOTE_SEGMENTS( segments, count )  khs_note_records( segments, count, KHS_SEGMENT_WORDS )
#define KHS_NOTE_EDGES( edges, count )        khs_note_records( edges, count, KHS_EDGE_WORDS )

  static void
  khs_note_in( struct af_khs_words*  kept )
  {
    khs_kept = af_khs_watch ? kept : NULL;
    if ( khs_kept )
      khs_kept->count = 0;
  }

  /* Begins the job of a step, by its call's number. */

  static void
  khs_job( AF_Dimension  dim,
           int           step,
           int           call )
  {
    khs_note_in( &af_khs_jobs[dim][step] );
    khs_note( call );
  }

  /**** asking the library ****/

  static double
  khs_now( void )
  {
    struct timespec  now;


    clock_gettime( CLOCK_MONOTONIC, &now );
    return (double)now.tv_sec * 1e9 + (double)now.tv_nsec;
  }

  static double  khs_began;

  static void
  khs_begin( void )
  {
    if ( af_khs_timed )
      khs_began = khs_now();
  }

  static FT_Int
  khs_answered( int      step,
                uint8_t  answer )
  {
    if ( af_khs_timed )
      af_khs_time += khs_now() - khs_began;
    af_khs_answers[step][answer]++;
    af_khs_refused += answer != KHS_DONE;
    return answer == KHS_DONE;
  }

#define KHS_DONE_BY( step, call )  ( khs_begin(), khs_answered( step, call ) )

  /**** words ****/

  /* A number of FreeType's, which may have 64 bits: one that has no place in 32 becomes one that the library refuses. */

  static int32_t
  khs_word( FT_Pos  x )
  {
    return x > 0x7FFFFFFF ? 0x7FFFFFFF : x < -0x7FFFFFFF ? -0x7FFFFFFF : (int32_t)x;
  }

  /* FreeType's directions are down -2, left -1, right 1, up 2 and none 4. */

  static const FT_Byte  khs_dirs[7]    = { KHS_DIR_DOWN, KHS_DIR_LEFT, KHS_DIR_NONE, KHS_DIR_RIGHT, KHS_DIR_UP, KHS_DIR_NONE, KHS_DIR_NONE };
  static const FT_Char  khs_af_dirs[5] = { AF_DIR_NONE, AF_DIR_RIGHT, AF_DIR_LEFT, AF_DIR_UP, AF_DIR_DOWN };

#define KHS_DIR( d )           ( khs_dirs[(d) + 2] )
#define KHS_INDEX( table, p )  ( (p) ? (int32_t)( (p) - (table) ) : KHS_NONE )
#define KHS_NAMED( table, i )  ( (i) == KHS_NONE ? NULL : (table) + (i) )
#define KHS_DIM( dim )         ( (dim) == AF_DIMENSION_VERT ? KHS_VERTICAL : KHS_HORIZONTAL )
#define KHS_SCALE( h, dim )    ( (dim) == AF_DIMENSION_HORZ ? (h)->x_scale : (h)->y_scale )

  static int32_t
  khs_group( AF_GlyphHints  hints )
  {
    return hints->metrics->style_class->writing_system == AF_WRITING_SYSTEM_LATIN ? KHS_LATIN : KHS_CJK;
  }

  static FT_Bool
  khs_retired( AF_GlyphHints  hints,
               AF_Dimension   dim )
  {
    return khs_group( hints ) == KHS_LATIN && dim == AF_DIMENSION_VERT && af_script_classes[hints->metrics->style_class->script]->top_to_bottom_hinting;
  }

  /* Whether an axis is left to FreeType, and counted. */

  static FT_Bool
  khs_left( AF_GlyphHints  hints,
            AF_Dimension   dim )
  {
    FT_Bool  left = khs_retired( hints, dim );


    af_khs_left += left;
    return left;
  }

  static void
  khs_take_segments( AF_GlyphHints        hints,
                     AF_AxisHints         axis,
                     struct khs_segment*  to )
  {
    AF_Segment  from = axis->segments, limit = FT_OFFSET( from, axis->num_segments );


    for ( ; from < limit; from++, to++ )
    {
      to->flags     = from->flags;
      to->dir       = KHS_DIR( from->dir );
      to->pos       = from->pos;
      to->delta     = from->delta;
      to->min_coord = from->min_coord;
      to->max_coord = from->max_coord;
      to->height    = from->height;
      to->score     = khs_word( from->score );
      to->len       = khs_word( from->len );
      to->link      = KHS_INDEX( axis->segments, from->link );
      to->serif     = KHS_INDEX( axis->segments, from->serif );
      to->first     = (int32_t)( from->first - hints->points );
      to->last      = (int32_t)( from->last - hints->points );
      to->edge      = KHS_INDEX( axis->edges, from->edge );
      to->next      = KHS_INDEX( axis->segments, from->edge_next );
    }
  }

  static void
  khs_take_edges( AF_AxisHints      axis,
                  struct khs_edge*  to )
  {
    AF_Edge  from = axis->edges, limit = FT_OFFSET( from, axis->num_edges );


    for ( ; from < limit; from++, to++ )
    {
      to->fpos        = from->fpos;
      to->opos        = khs_word( from->opos );
      to->pos         = khs_word( from->pos );
      to->flags       = from->flags;
      to->dir         = KHS_DIR( from->dir );
      to->blue        = from->blue_edge != NULL;
      to->blue_fitted = from->blue_edge ? khs_word( from->blue_edge->fit ) : 0;
      to->link        = KHS_INDEX( axis->edges, from->link );
      to->serif       = KHS_INDEX( axis->edges, from->serif );
      to->first       = KHS_INDEX( axis->segments, from->first );
      to->last        = KHS_INDEX( axis->segments, from->last );
      to->mark        = KHS_MARK_NOTHING;
    }
  }

  /* What fitting writes of edges. */

  static void
  khs_put_edges( AF_AxisHints            axis,
                 const struct khs_edge*  from )
  {
    AF_Edge  to = axis->edges, limit = FT_OFFSET( to, axis->num_edges );


    for ( ; to < limit; to++, from++ )
    {
      to->pos   = from->pos;
      to->flags = (FT_Byte)from->flags;
      if ( !from->blue )
        to->blue_edge = NULL;
    }
  }

  /* The points of an axis. */

  struct khs_points
  {
    FT_Int    count, contours;
    int16_t   fonts[KHS_POINTS];
    int32_t   originals[KHS_POINTS], currents[KHS_POINTS];
    uint8_t   touched[KHS_POINTS], weak[KHS_POINTS];
    uint16_t  ends[KHS_POINTS];
  };

  static FT_Int
  khs_take_points( AF_GlyphHints       hints,
                   AF_Dimension        dim,
                   struct khs_points*  to )
  {
    AF_Point  from = hints->points;
    FT_Int    nn;


    to->count    = hints->num_points;
    to->contours = hints->num_contours;
    if ( to->count > KHS_POINTS || to->contours > KHS_POINTS )
      return 0;
    for ( nn = 0; nn < to->count; nn++, from++ )
    {
      FT_Bool  horizontal = dim == AF_DIMENSION_HORZ;


      to->fonts[nn]     = horizontal ? from->fx : from->fy;
      to->originals[nn] = khs_word( horizontal ? from->ox : from->oy );
      to->currents[nn]  = khs_word( horizontal ? from->x : from->y );
      to->touched[nn]   = ( from->flags & ( horizontal ? AF_FLAG_TOUCH_X : AF_FLAG_TOUCH_Y ) ) != 0;
      to->weak[nn]      = ( from->flags & AF_FLAG_WEAK_INTERPOLATION ) != 0;
    }
    for ( nn = 0; nn < to->contours; nn++ )
      to->ends[nn] = (uint16_t)( hints->contours[nn]->prev - hints->points );
    return 1;
  }

  static void
  khs_put_points( AF_GlyphHints             hints,
                  AF_Dimension              dim,
                  const struct khs_points*  from )
  {
    AF_Point  to = hints->points;
    FT_Int    nn;


    for ( nn = 0; nn < from->count; nn++, to++ )
      if ( dim == AF_DIMENSION_HORZ )
      {
        to->x = from->currents[nn];
        if ( from->touched[nn] )
          to->flags |= AF_FLAG_TOUCH_X;
      }
      else
      {
        to->y = from->currents[nn];
        if ( from->touched[nn] )
          to->flags |= AF_FLAG_TOUCH_Y;
      }
  }

  /* Puts the points back where the call is done, and hands on whether it is. */

  static FT_Int
  khs_put_where( FT_Int                    done,
                 AF_GlyphHints             hints,
                 AF_Dimension              dim,
                 const struct khs_points*  from )
  {
    if ( done )
      khs_put_points( hints, dim, from );
    return done;
  }

  /**** widths ****/

  /* The standard widths of an axis at its scale, strictly rising and each 1 to 16,383, as the library wants them: FreeType's may come to 0 at a small size, and CJK's it does not scale. */

  static FT_Int
  khs_standards( AF_GlyphHints  hints,
                 AF_Dimension   dim,
                 int32_t*       standards )
  {
    AF_LatinMetrics  latin = (AF_LatinMetrics)hints->metrics;
    AF_CJKMetrics    cjk   = (AF_CJKMetrics)hints->metrics;
    FT_Bool          is_latin = khs_group( hints ) == KHS_LATIN;
    AF_Width         widths   = is_latin ? latin->axis[dim].widths : cjk->axis[dim].widths;
    FT_UInt          count    = is_latin ? latin->axis[dim].width_count : cjk->axis[dim].width_count, i;
    FT_Int           n = 0, j;


    for ( i = 0; i < count; i++ )
    {
      FT_Pos  w = FT_MulFix( widths[i].org, KHS_SCALE( hints, dim ) );


      for ( j = n; j > 0 && standards[j - 1] > w; j-- )
        ;
      if ( w < 1 || w > 16383 || ( j > 0 && standards[j - 1] == w ) )
        continue;
      ft_memmove( standards + j + 1, standards + j, (size_t)( n - j ) * sizeof ( *standards ) );
      standards[j] = (int32_t)w;
      n++;
    }
    return n;
  }

  FT_LOCAL_DEF( FT_Pos )
  af_khs_width( AF_GlyphHints  hints,
                AF_Dimension   dim,
                FT_Pos         width )
  {
    int32_t  standards[KHS_WIDTHS];
    FT_Pos   magnitude = FT_ABS( width ), nearest = 16 + 1, fitted = magnitude;
    FT_Int   i, n;


    if ( af_khs_rule == KHS_KEEP || width == 0 )
      return width;
    n = khs_standards( hints, dim, standards );
    for ( i = 0; i < n; i++ )
    {
      FT_Pos  away = FT_ABS( standards[i] - magnitude );


      if ( away < nearest )
      {
        nearest = away;
        fitted  = standards[i];
      }
    }
    fitted = FT_MAX( fitted, 64 );
    return width < 0 ? -fitted : fitted;
  }

  /**** what is seen behind a step ****/

  static void
  khs_see_edges( AF_Dimension            dim,
                 int                     step,
                 const struct khs_edge*  edges,
                 FT_Int                  count )
  {
    FT_Int  nn;


    khs_note_in( &af_khs_tables[dim][step] );
    for ( nn = 0; khs_kept && nn < count * KHS_EDGE_WORDS; nn++ )
      khs_note( nn % KHS_EDGE_WORDS == KHS_EDGE_WORDS - 1 ? KHS_MARK_NOTHING : ( (const int32_t*)edges )[nn] );   /* FreeType has no marks */
  }

  FT_LOCAL_DEF( void )
  af_khs_seen( AF_GlyphHints  hints,
               AF_Dimension   dim,
               int            step )
  {
    AF_AxisHints  axis = &hints->axis[dim];

    static struct khs_segment  segments[KHS_MOST_SEGMENTS];
    static struct khs_edge     edges[KHS_MOST_EDGES];
    static struct khs_points   points;


    if ( !af_khs_watch || axis->num_segments > KHS_MOST_SEGMENTS || axis->num_edges > KHS_MOST_EDGES )
      return;
    if ( step > AF_KHS_BUILT && step < AF_KHS_EDGE_POINTS )
    {
      khs_take_edges( axis, edges );
      khs_see_edges( dim, step, edges, axis->num_edges );
      return;
    }
    khs_note_in( &af_khs_tables[dim][step] );
    if ( step <= AF_KHS_BUILT )
    {
      khs_take_segments( hints, axis, segments );
      KHS_NOTE_SEGMENTS( segments, axis->num_segments );
    }
    if ( step == AF_KHS_BUILT )
    {
      khs_take_edges( axis, edges );
      KHS_NOTE_EDGES( edges, axis->num_edges );
    }
    if ( step > AF_KHS_BUILT && khs_take_points( hints, dim, &points ) )
    {
      KHS_NOTE_LIST( points.currents, points.count );
      KHS_NOTE_LIST( points.touched, points.count );
    }
  }

  /**** the steps ****/

  FT_LOCAL_DEF( FT_Int )
  af_khs_link( AF_GlyphHints  hints,
               AF_Dimension   dim )
  {
    AF_AxisHints        axis  = &hints->axis[dim];
    int32_t             major = KHS_DIR( axis->major_dir ), scale = khs_word( KHS_SCALE( hints, dim ) );
    int32_t             units = (int32_t)( (AF_CJKMetrics)hints->metrics )->units_per_em;
    struct khs_segment  segments[KHS_MOST_SEGMENTS];
    FT_Int              i;


    if ( AF_KHS == AF_KHS_NONE )
      return 0;
    if ( axis->num_segments > KHS_MOST_SEGMENTS )
      return khs_answered( AF_KHS_LINKED, KHS_TOO_LONG );
    khs_take_segments( hints, axis, segments );
    khs_job( dim, AF_KHS_LINKED, 4 );
    KHS_NOTE_SEGMENTS( segments, axis->num_segments );
    khs_note( major );
    khs_note( units );
    khs_note( scale );
    if ( !KHS_DONE_BY( AF_KHS_LINKED, khs_link_segments_cjk( (int32_t*)segments, (khs_length)axis->num_segments * KHS_SEGMENT_WORDS, major, units, scale ) ) )
      return 0;
    for ( i = 0; i < axis->num_segments; i++ )
    {
      AF_Segment  seg = axis->segments + i;


      seg->score = segments[i].score;
      seg->len   = segments[i].len;
      seg->link  = KHS_NAMED( axis->segments, segments[i].link );
      seg->serif = KHS_NAMED( axis->segments, segments[i].serif );
    }
    return 1;
  }

  /* Writes built edges, and what building wrote of segments. FreeType's table grows by one edge at a time. */

  static FT_Error
  khs_put_built( AF_GlyphHints              hints,
                 AF_AxisHints               axis,
                 const struct khs_segment*  segments,
                 const struct khs_edge*     edges,
                 int32_t                    count )
  {
    AF_Edge  edge;
    int32_t  i;


    axis->num_edges = 0;
    for ( i = 0; i < count; i++ )
    {
      FT_Error  error = af_axis_hints_new_edge( axis, edges[i].fpos, axis->major_dir, 0, hints->memory, &edge );


      if ( error )
        return error;
      edge->fpos = (FT_Short)edges[i].fpos;
    }
    for ( i = 0; i < count; i++ )
    {
      edge = axis->edges + i;
      FT_ZERO( edge );
      edge->fpos  = (FT_Short)edges[i].fpos;
      edge->opos  = edges[i].opos;
      edge->pos   = edges[i].pos;
      edge->flags = (FT_Byte)edges[i].flags;
      edge->dir   = khs_af_dirs[edges[i].dir];
      edge->link  = KHS_NAMED( axis->edges, edges[i].link );
      edge->serif = KHS_NAMED( axis->edges, edges[i].serif );
      edge->first = axis->segments + edges[i].first;
      edge->last  = axis->segments + edges[i].last;
    }
    for ( i = 0; i < axis->num_segments; i++ )
    {
      axis->segments[i].edge      = KHS_NAMED( axis->edges, segments[i].edge );
      axis->segments[i].edge_next = KHS_NAMED( axis->segments, segments[i].next );
    }
    return FT_Err_Ok;
  }

  FT_LOCAL_DEF( FT_Int )
  af_khs_build( AF_GlyphHints  hints,
                AF_Dimension   dim,
                FT_Error*      error )
  {
    AF_AxisHints        axis  = &hints->axis[dim];
    int32_t             group = khs_group( hints ), major = KHS_DIR( axis->major_dir ), count;
    FT_Fixed            scale = KHS_SCALE( hints, dim );
    int32_t             distance, length = 0, width = 0;
    struct khs_segment  segments[KHS_MOST_SEGMENTS];
    struct khs_edge     edges[KHS_MOST_EDGES];
    FT_Int              i;


    if ( AF_KHS == AF_KHS_NONE || khs_retired( hints, dim ) )
      return 0;
    if ( axis->num_segments > KHS_MOST_SEGMENTS )
      return khs_answered( AF_KHS_BUILT, KHS_TOO_LONG );
    khs_take_segments( hints, axis, segments );
    for ( i = 0; i < axis->num_segments; i++ )
      segments[i].edge = segments[i].next = KHS_NONE;
    if ( group == KHS_LATIN )
    {
      distance = khs_word( ( (AF_LatinMetrics)hints->metrics )->axis[dim].edge_distance_threshold );
      length   = dim == AF_DIMENSION_HORZ ? khs_word( FT_DivFix( 64, hints->y_scale ) ) : 0;
      width    = khs_word( FT_DivFix( 32, scale ) );
    }
    else
      distance = khs_word( ( (AF_CJKMetrics)hints->metrics )->axis[dim].edge_distance_threshold );
    khs_job( dim, AF_KHS_BUILT, 105 );
    KHS_NOTE_SEGMENTS( segments, axis->num_segments );
    khs_note( 0 );
    khs_note( KHS_DIM( dim ) );
    khs_note( major );
    khs_note( group );
    khs_note( 0 );
    khs_note( khs_word( scale ) );
    khs_note( distance );
    khs_note( length );
    khs_note( width );
    if ( !KHS_DONE_BY( AF_KHS_BUILT,
                       khs_compute_edges( (int32_t*)segments, (khs_length)axis->num_segments * KHS_SEGMENT_WORDS, (int32_t*)edges, KHS_MOST_EDGES * KHS_EDGE_WORDS,
                                          KHS_DIM( dim ), major, group, 0, khs_word( scale ), distance, length, width, &count ) ) )
      return 0;
    *error = khs_put_built( hints, axis, segments, edges, count );
    return 1;
  }

  /* The edges of an axis on their way from one call to the next, with what these are told. */

  struct khs_edges
  {
    AF_Dimension     dim;
    FT_Int           count, widths;
    int32_t          group, adjust, anchor, passed_over;
    int32_t          standards[KHS_WIDTHS];
    struct khs_edge  edges[KHS_MOST_EDGES];
  };

#define KHS_EDGES_OF( e )      (int32_t*)(e)->edges, (khs_length)(e)->count * KHS_EDGE_WORDS
#define KHS_STANDARDS_OF( e )  (e)->standards, (khs_length)(e)->widths

  /* Begins a job over these edges. */

  static void
  khs_job_of( struct khs_edges*  e,
              int                step,
              int                call )
  {
    khs_job( e->dim, step, call );
    KHS_NOTE_EDGES( e->edges, e->count );
  }

  static void
  khs_note_rule( struct khs_edges*  e )
  {
    khs_note( af_khs_rule );
    KHS_NOTE_LIST( e->standards, e->widths );
  }

  static FT_Int
  khs_blues( struct khs_edges*  e )
  {
    khs_job_of( e, AF_KHS_BLUES, 106 );
    khs_note( KHS_DIM( e->dim ) );
    khs_note( e->group );
    khs_note_rule( e );
    return KHS_DONE_BY( AF_KHS_BLUES, khs_align_edges_to_blues( KHS_EDGES_OF( e ), KHS_DIM( e->dim ), e->group, af_khs_rule, KHS_STANDARDS_OF( e ), &e->anchor ) );
  }

  static FT_Int
  khs_stems( struct khs_edges*  e )
  {
    int32_t  zone = e->anchor;


    khs_job_of( e, AF_KHS_STEMS, 112 );
    khs_note( KHS_DIM( e->dim ) );
    khs_note( e->group );
    khs_note( e->adjust );
    khs_note( 0 );
    khs_note( zone );
    khs_note_rule( e );
    return KHS_DONE_BY( AF_KHS_STEMS,
                        khs_align_stem_edges( KHS_EDGES_OF( e ), KHS_DIM( e->dim ), e->group, e->adjust, 0, zone, af_khs_rule, KHS_STANDARDS_OF( e ),
                                              &e->passed_over, &e->anchor ) );
  }

  /* FreeType takes every glyph with 6 or 12 upright edges for an m. */

  static FT_Int
  khs_lowercase_m( struct khs_edges*  e )
  {
    if ( e->dim != AF_DIMENSION_HORZ || ( e->count != 6 && e->count != 12 ) )
      return 1;
    khs_job_of( e, AF_KHS_M, 113 );
    khs_note( e->group );
    return KHS_DONE_BY( AF_KHS_M, khs_hint_lowercase_m( KHS_EDGES_OF( e ), e->group ) );
  }

  static FT_Int
  khs_remaining( struct khs_edges*  e )
  {
    int32_t  anchor = e->anchor;


    if ( e->passed_over == 0 && anchor != KHS_NONE )
      return 1;
    khs_job_of( e, AF_KHS_REMAINING, 130 );
    khs_note( KHS_DIM( e->dim ) );
    khs_note( e->group );
    khs_note( e->passed_over );
    khs_note( anchor );
    return KHS_DONE_BY( AF_KHS_REMAINING, khs_align_remaining_edges( KHS_EDGES_OF( e ), KHS_DIM( e->dim ), e->group, e->passed_over, anchor, &e->anchor ) );
  }

  FT_LOCAL_DEF( FT_Int )
  af_khs_hint_edges( AF_GlyphHints  hints,
                     AF_Dimension   dim )
  {
    static FT_Int  ( * const steps[] )( struct khs_edges* ) = { khs_blues, khs_stems, khs_lowercase_m, khs_remaining };

    AF_AxisHints      axis = &hints->axis[dim];
    struct khs_edges  e;
    FT_Int            i;


    if ( AF_KHS != AF_KHS_CALLS || khs_left( hints, dim ) )
      return 0;
    if ( axis->num_edges > KHS_MOST_EDGES )
      return khs_answered( AF_KHS_BLUES, KHS_TOO_LONG );
    e.dim    = dim;
    e.count  = axis->num_edges;
    e.group  = khs_group( hints );
    e.adjust = AF_LATIN_HINTS_DO_STEM_ADJUST( hints ) != 0;
    e.widths = af_khs_rule == KHS_SNAP ? khs_standards( hints, dim, e.standards ) : 0;
    khs_take_edges( axis, e.edges );
    for ( i = 0; i < 4; i++ )
    {
      if ( !steps[i]( &e ) )
        return 0;
      khs_see_edges( dim, AF_KHS_BLUES + i, e.edges, e.count );
    }
    khs_put_edges( axis, e.edges );
    return 1;
  }

  /* Whether points of edges come to their edge, or move as far as it does: CJK's do so in FreeType where it snaps. */

  static int32_t
  khs_snap( AF_GlyphHints  hints,
            AF_Dimension   dim )
  {
    return khs_group( hints ) == KHS_LATIN                                            ||
           ( dim == AF_DIMENSION_HORZ ? AF_LATIN_HINTS_DO_HORZ_SNAP( hints ) != 0
                                      : AF_LATIN_HINTS_DO_VERT_SNAP( hints ) != 0 );
  }

  FT_LOCAL_DEF( FT_Int )
  af_khs_edge_points( AF_GlyphHints  hints,
                      AF_Dimension   dim )
  {
    AF_AxisHints        axis = &hints->axis[dim];
    int32_t             snap = khs_snap( hints, dim );
    struct khs_segment  segments[KHS_MOST_SEGMENTS];
    struct khs_edge     edges[KHS_MOST_EDGES];
    struct khs_points   points;


    if ( AF_KHS != AF_KHS_CALLS )
      return 0;
    if ( axis->num_segments > KHS_MOST_SEGMENTS || axis->num_edges > KHS_MOST_EDGES || !khs_take_points( hints, dim, &points ) )
      return khs_answered( AF_KHS_EDGE_POINTS, KHS_TOO_LONG );
    khs_take_segments( hints, axis, segments );
    khs_take_edges( axis, edges );
    khs_job( dim, AF_KHS_EDGE_POINTS, 128 );
    KHS_NOTE_SEGMENTS( segments, axis->num_segments );
    KHS_NOTE_EDGES( edges, axis->num_edges );
    khs_note( snap );
    khs_note( 0 );
    KHS_NOTE_LIST( points.currents, points.count );
    KHS_NOTE_LIST( points.touched, points.count );
    KHS_NOTE_LIST( points.ends, points.contours );
    return khs_put_where( KHS_DONE_BY( AF_KHS_EDGE_POINTS,
                                       khs_align_edge_points( (const int32_t*)segments, (khs_length)axis->num_segments * KHS_SEGMENT_WORDS,
                                                              (const int32_t*)edges, (khs_length)axis->num_edges * KHS_EDGE_WORDS, snap, 0,
                                                              points.currents, (khs_length)points.count, points.touched, (khs_length)points.count,
                                                              points.ends, (khs_length)points.contours ) ), hints, dim, &points );
  }

  FT_LOCAL_DEF( FT_Int )
  af_khs_strong_points( AF_GlyphHints  hints,
                        AF_Dimension   dim )
  {
    AF_AxisHints       axis = &hints->axis[dim];
    struct khs_edge    edges[KHS_MOST_EDGES];
    struct khs_points  points;
    khs_length         count = (khs_length)hints->num_points;


    if ( AF_KHS != AF_KHS_CALLS || khs_retired( hints, dim ) )
      return 0;
    if ( axis->num_edges > KHS_MOST_EDGES || !khs_take_points( hints, dim, &points ) )
      return khs_answered( AF_KHS_STRONG, KHS_TOO_LONG );
    khs_take_edges( axis, edges );
    khs_job( dim, AF_KHS_STRONG, 131 );
    KHS_NOTE_EDGES( edges, axis->num_edges );
    KHS_NOTE_LIST( points.fonts, points.count );
    KHS_NOTE_LIST( points.originals, points.count );
    KHS_NOTE_LIST( points.currents, points.count );
    KHS_NOTE_LIST( points.touched, points.count );
    KHS_NOTE_LIST( points.weak, points.count );
    return khs_put_where( KHS_DONE_BY( AF_KHS_STRONG,
                                       khs_align_strong_points( (const int32_t*)edges, (khs_length)axis->num_edges * KHS_EDGE_WORDS, points.fonts, count, points.originals, count,
                                                                points.currents, count, points.touched, count, points.weak, count ) ), hints, dim, &points );
  }

  FT_LOCAL_DEF( FT_Int )
  af_khs_weak_points( AF_GlyphHints  hints,
                      AF_Dimension   dim )
  {
    struct khs_points  points;
    khs_length         count = (khs_length)hints->num_points;


    if ( AF_KHS != AF_KHS_CALLS )
      return 0;
    if ( !khs_take_points( hints, dim, &points ) )
      return khs_answered( AF_KHS_WEAK, KHS_TOO_LONG );
    khs_job( dim, AF_KHS_WEAK, 3 );
    KHS_NOTE_LIST( points.originals, points.count );
    KHS_NOTE_LIST( points.currents, points.count );
    KHS_NOTE_LIST( points.touched, points.count );
    KHS_NOTE_LIST( points.ends, points.contours );
    return khs_put_where( KHS_DONE_BY( AF_KHS_WEAK,
                                       khs_align_weak_points( points.originals, count, points.currents, count, points.touched, count, points.ends, (khs_length)points.contours ) ), hints, dim, &points );
  }

  static void
  khs_note_points( const struct khs_points*  points )
  {
    KHS_NOTE_LIST( points->fonts, points->count );
    KHS_NOTE_LIST( points->originals, points->count );
    KHS_NOTE_LIST( points->currents, points->count );
    KHS_NOTE_LIST( points->touched, points->count );
    KHS_NOTE_LIST( points->weak, points->count );
    KHS_NOTE_LIST( points->ends, points->contours );
  }

  FT_LOCAL_DEF( FT_Int )
  af_khs_fit_axis( AF_GlyphHints  hints,
                   AF_Dimension   dim )
  {
    AF_AxisHints        axis = &hints->axis[dim];
    struct khs_segment  segments[KHS_MOST_SEGMENTS];
    struct khs_edge     edges[KHS_MOST_EDGES];
    struct khs_points   points;
    struct khs_fit      numbers;
    struct khs_fitted   fitted;
    khs_length          count = (khs_length)hints->num_points;
    int32_t             standards[KHS_WIDTHS];
    FT_Int              widths;


    if ( AF_KHS != AF_KHS_ONE || khs_left( hints, dim ) )
      return 0;
    if ( axis->num_segments > KHS_MOST_SEGMENTS || axis->num_edges > KHS_MOST_EDGES || !khs_take_points( hints, dim, &points ) )
      return khs_answered( AF_KHS_FITTED, KHS_TOO_LONG );
    khs_take_segments( hints, axis, segments );
    khs_take_edges( axis, edges );
    widths  = af_khs_rule == KHS_SNAP ? khs_standards( hints, dim, standards ) : 0;
    numbers = (struct khs_fit){ .dim         = KHS_DIM( dim ),
                                .group       = khs_group( hints ),
                                .stem_adjust = AF_LATIN_HINTS_DO_STEM_ADJUST( hints ) != 0,
                                .snap        = khs_snap( hints, dim ),
                                .rule        = af_khs_rule,
                                .lowercase_m = 1,
                                .least       = KHS_LEAST_GAP,
                                .linked      = 1 };
    khs_job( dim, AF_KHS_FITTED, 129 );
    KHS_NOTE_SEGMENTS( segments, axis->num_segments );
    KHS_NOTE_EDGES( edges, axis->num_edges );
    KHS_NOTE_LIST( (const int32_t*)&numbers, KHS_FIT_WORDS );
    KHS_NOTE_LIST( standards, widths );
    khs_note_points( &points );
    if ( !KHS_DONE_BY( AF_KHS_FITTED,
                       khs_fit_axis( (const int32_t*)segments, (khs_length)axis->num_segments * KHS_SEGMENT_WORDS, (int32_t*)edges, (khs_length)axis->num_edges * KHS_EDGE_WORDS,
                                     (const int32_t*)&numbers, KHS_FIT_WORDS, standards, (khs_length)widths, points.fonts, count, points.originals, count,
                                     points.currents, count, points.touched, count, points.weak, count, points.ends, (khs_length)points.contours,
                                     (int32_t*)&fitted, KHS_FITTED_WORDS ) ) )
      return 0;
    khs_put_edges( axis, edges );
    khs_put_points( hints, dim, &points );
    af_khs_seen( hints, dim, AF_KHS_WEAK );
    return 1;
  }

/* END */
